/* Every call with its answer dropped: a warning each. */
#include "kingletbed.h"

void drop(kb_scan *scan, kb_lookup_answer found, uint32_t *slots, uint32_t *out, uint8_t *bytes, const uint8_t *table);

void drop(kb_scan *scan, kb_lookup_answer found, uint32_t *slots, uint32_t *out, uint8_t *bytes, const uint8_t *table)
{
    kb_account_byte(0);
    kb_number_word(0);
    kb_extent(0);
    kb_morton(0, 0, 0);
    kb_block(0, 0, 0, 0);
    kb_point(0, 0);
    kb_tile_corner(0);
    kb_tile_size(0);
    kb_tile_account(0);
    kb_mils_pixel(0, bytes, 1);
    kb_mils_h(0, 0);
    kb_mils_text(0, 0, bytes, 1);
    kb_load(table, 1, bytes, 1);
    kb_check(0, 0, slots, 1);
    kb_fresh(KB_ROWS, 0, slots, 1);
    kb_feed(KB_ROWS, 0, 0, 0, slots, 1, bytes, 1);
    kb_decode(0, 0, slots, 1, bytes, 1);
    kb_lookup(KB_ROWS, 0, 0, 0, slots, 1, 0, 0);
    kb_lookup_has(found, 0, 0);
    kb_part(0, 0, slots, 1, 0, 0);
    kb_part_tiles(0, 0, slots, 1, 0, 0);
    kb_rights(table, 1, KB_ROWS, 0, 0, 0, slots, 1, 0, 0, 1);
    kb_claim(KB_ROWS, 0, 0, 0, slots, 1, 0, 0, 1);
    kb_preview(KB_ROWS, 0, 0, 0, slots, 1, 0, 0, 1);
    kb_write(KB_ROWS, 0, 0, 0, slots, 1, bytes, 1);
    kb_read(bytes, 1, slots, 1);
    kb_combine(KB_INSIDE, 0, 0, slots, 1, 0, 0, slots, 1, out, 1);
    kb_scan_fresh(scan, KB_ROWS, 0, slots, 1);
    kb_scan_read(scan, bytes, 1, slots, 1);
    kb_scan_combine(scan, KB_INSIDE, scan, scan, out, 1);
    kb_scan_feed(scan, bytes, 1);
    kb_scan_claim(scan, 0, 0, 1);
    kb_scan_preview(scan, 0, 0, 1);
    kb_scan_check(scan);
    kb_scan_decode(scan, bytes, 1);
    kb_scan_lookup(scan, 0, 0);
    kb_scan_rights(scan, table, 1, 0, 0, 1);
    kb_scan_part(scan, 0, 0);
    kb_scan_shown(scan, 0, 0);
    kb_scan_write(scan, bytes, 1);
    kb_refusal_text(0);
}
