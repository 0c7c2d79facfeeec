/* What the files of this test program share. They are C99 and C++11 at once. */
#ifndef TEST_H
#define TEST_H

#include "kingletbed.h"

/* Counts and prints a condition that does not hold. */
#define CHECK(condition) ((condition) ? (void)0 : test_failed(#condition, __FILE__, __LINE__))
void test_failed(const char *condition, const char *file, int line);

/* The value a kb_scan begins with. */
#ifdef __cplusplus
#define NO_SCAN {}
#else
#define NO_SCAN {0}
#endif

/* Have two scans the same fields? */
int same(const kb_scan *one, const kb_scan *other);

/* Does a lookup on a scan answer this account and this block? */
int finds(const kb_scan *scan, uint32_t column, uint32_t row, uint8_t account, uint32_t corner, uint32_t size);

/* Scans bed M of the rules: order 2, rows 5 5 0 0, 5 5 0 9, 9 0 9 9 and 0 0 9 9, in 4 tiles. */
void scan_bed_m(kb_scan *scan, uint32_t *slots, size_t slots_length);

void test_numbers(void);
void test_limits(void);
void test_texts(void);
void test_mils(void);
void test_load(void);
void test_load_unsound(void);
void test_table_rights(void);
void test_table_in_force(void);
void test_empty(void);
void test_fresh(void);
void test_feed(void);
void test_feed_many(void);
void test_feed_uniform(void);
void test_claim(void);
void test_preview(void);
void test_accounts(void);
void test_wide(void);
void test_file(void);
void test_same_files(void);
void test_roster(void);
void test_lookup(void);
void test_lookup_has(void);
void test_shown(void);
void test_many_claims(void);
void test_unscanned(void);
void test_unscanned_claim(void);
void test_unscanned_shown(void);
void test_unscanned_combine(void);
void test_unscanned_checks(void);
void test_unscanned_edges(void);
void test_many_unscanned(void);
void test_combine(void);
void test_combine_same(void);
void test_combine_choices(void);
void test_combine_refusals(void);
void test_combine_damaged(void);
void test_combine_slots(void);
void test_scan_combine(void);
void test_scan_combine_itself(void);
void test_many_combined(void);

#endif
