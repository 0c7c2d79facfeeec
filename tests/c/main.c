/* Runs the tests of the header; 0 if nothing failed. */
#include "test.h"

#include <stdio.h>

static int failures;

void test_failed(const char *condition, const char *file, int line)
{
    printf("%s:%d: %s\n", file, line, condition);
    failures++;
}

int main(void)
{
    test_numbers();
    test_limits();
    test_texts();
    test_mils();
    test_load();
    test_load_unsound();
    test_table_rights();
    test_table_in_force();
    test_empty();
    test_fresh();
    test_feed();
    test_feed_many();
    test_feed_uniform();
    test_claim();
    test_preview();
    test_accounts();
    test_wide();
    test_file();
    test_same_files();
    test_roster();
    test_lookup();
    test_lookup_has();
    test_shown();
    test_many_claims();
    test_unscanned();
    test_unscanned_claim();
    test_unscanned_shown();
    test_unscanned_combine();
    test_unscanned_checks();
    test_unscanned_edges();
    test_many_unscanned();
    test_combine();
    test_combine_same();
    test_combine_choices();
    test_combine_refusals();
    test_combine_damaged();
    test_combine_slots();
    test_scan_combine();
    test_scan_combine_itself();
    test_many_combined();
    return failures > 0;
}
