/* Every call written straightforwardly in C, unproved: what the library is measured against. Same arguments, answers and checks. */
#ifndef STRAIGHT_H
#define STRAIGHT_H

#include "kingletbed.h"

uint32_t straight_check(uint32_t order, size_t tiles, const uint32_t *slots, size_t slots_length);
kb_fresh_answer straight_fresh(uint32_t kind, uint32_t order, uint32_t *slots, size_t slots_length);
kb_feed_answer straight_feed(uint32_t kind, uint32_t order, uint32_t pixels, size_t tiles, uint32_t *slots, size_t slots_length,
                             const uint8_t *accounts, size_t accounts_length);
uint32_t straight_decode(uint32_t order, size_t tiles, const uint32_t *slots, size_t slots_length,
                         uint8_t *raster, size_t raster_length);
kb_lookup_answer straight_lookup(uint32_t kind, uint32_t order, uint32_t pixels, size_t tiles,
                                 const uint32_t *slots, size_t slots_length, uint32_t column, uint32_t row);
kb_part_answer straight_part(uint32_t order, size_t tiles, const uint32_t *slots, size_t slots_length,
                             uint32_t corner, uint32_t size);
kb_rights_answer straight_rights(const uint8_t *table, size_t table_length,
                                 uint32_t kind, uint32_t order, uint32_t pixels, size_t tiles,
                                 const uint32_t *slots, size_t slots_length, uint32_t column, uint32_t row,
                                 uint8_t account);
kb_preview_answer straight_preview(uint32_t kind, uint32_t order, uint32_t pixels, size_t tiles,
                                   const uint32_t *slots, size_t slots_length, uint32_t corner, uint32_t size,
                                   uint8_t account);
kb_claim_answer straight_claim(uint32_t kind, uint32_t order, uint32_t pixels, size_t tiles,
                               uint32_t *slots, size_t slots_length, uint32_t corner, uint32_t size, uint8_t account);
kb_write_answer straight_write(uint32_t kind, uint32_t order, uint32_t pixels, size_t tiles,
                               const uint32_t *slots, size_t slots_length, uint8_t *file, size_t file_length);
kb_read_answer straight_read(const uint8_t *file, size_t file_length, uint32_t *slots, size_t slots_length);
kb_combine_answer straight_combine(uint32_t choice,
                                   uint32_t order1, size_t tiles1, const uint32_t *slots1, size_t slots1_length,
                                   uint32_t order2, size_t tiles2, const uint32_t *slots2, size_t slots2_length,
                                   uint32_t *out, size_t out_length);
kb_mils_pixel_answer straight_mils_pixel(uint32_t order, const uint8_t *text, size_t text_length);
kb_mils_h_answer straight_mils_h(uint32_t order, uint32_t pixel);
kb_mils_text_answer straight_mils_text(uint32_t order, uint32_t pixel, uint8_t *text, size_t text_length);
uint32_t straight_load(const uint8_t *file, size_t file_length, uint8_t *table, size_t table_length);

/* Used by more than one of the files here. straight_place is how many places come before a pixel's own in a scan;
   straight_opening has the opening checks. */
uint32_t straight_morton(uint32_t column, uint32_t row);
uint32_t straight_side(uint32_t morton);
uint32_t straight_place(uint32_t kind, uint32_t order, uint32_t morton);
uint32_t straight_opening(uint32_t kind, uint32_t order, uint32_t pixels, size_t tiles,
                          const uint32_t *slots, size_t slots_length);

static inline uint32_t area(uint32_t size) { return 1u << (2 * size); }
static inline uint32_t corner_of(uint32_t word) { return word >> 10; }
static inline uint32_t size_of(uint32_t word) { return (word >> 6) & 15; }
static inline uint8_t account_of(uint32_t word) { return (uint8_t)(word & 63); }

static inline uint32_t word_of(uint32_t corner, uint32_t size, uint32_t account)
{
    return corner << 10 | size << 6 | account;
}

static inline uint32_t end_of(uint32_t word) { return corner_of(word) + area(size_of(word)); }

/* The check of one word, number i of a list whose words ahead are good and end at `end`. */
static inline uint32_t straight_word(uint32_t order, const uint32_t *list, size_t i, uint32_t end)
{
    uint32_t word = list[i];
    uint32_t corner = corner_of(word), size = size_of(word);
    if (word >> 30)
        return KB_HIGH_BITS_SET;
    if (size > order)
        return KB_SIZE_ABOVE_ORDER;
    if (corner >= area(order) || corner & (area(size) - 1))
        return KB_CORNER_INVALID;
    if (account_of(word) == 0)
        return KB_ACCOUNT_ZERO;
    if (corner < end)
        return KB_TILES_OVERLAP;
    uint32_t step = area(size) << 10;
    if (i >= 3 && (corner >> 2 * size & 3) == 3 && list[i - 1] == word - step && list[i - 2] == word - 2 * step
        && list[i - 3] == word - 3 * step)
        return KB_SIBLINGS_UNMERGED;
    return 0;
}

#endif
