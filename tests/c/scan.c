/* The scan with its slots: what each function leaves in it, what a lookup names, and what a block shows. */
#include "test.h"

#include <string.h>

static const uint8_t bed_m[16] = {5, 5, 0, 0, 5, 5, 0, 9, 9, 0, 9, 9, 0, 0, 9, 9};

int same(const kb_scan *one, const kb_scan *other)
{
    return one->kind == other->kind && one->order == other->order && one->pixels == other->pixels
           && one->tiles == other->tiles && one->slots == other->slots && one->slots_length == other->slots_length;
}

void scan_bed_m(kb_scan *scan, uint32_t *slots, size_t slots_length)
{
    CHECK(kb_scan_fresh(scan, KB_ROWS, 2, slots, slots_length) == KB_ACCEPTED);
    CHECK(kb_scan_feed(scan, bed_m, 16).number == KB_ACCEPTED);
    CHECK(scan->tiles == 4 && scan->pixels == 16);
}

/* Without slots: a bed of one pixel, before it is scanned and after. */
void test_empty(void)
{
    kb_scan scan = NO_SCAN;
    uint8_t account = 0, file[6];
    CHECK(kb_scan_check(&scan) == KB_ACCEPTED);
    CHECK(kb_scan_lookup(&scan, 0, 0).number == KB_UNSCANNED);
    CHECK(kb_scan_rights(&scan, NULL, 0, 0, 0, 7).number == KB_UNSCANNED);
    CHECK(kb_scan_preview(&scan, 0, 0, 7).number == KB_UNSCANNED && kb_scan_claim(&scan, 0, 0, 0) == KB_UNSCANNED);
    CHECK(kb_scan_write(&scan, file, 6).number == KB_UNSCANNED);
    CHECK(kb_scan_shown(&scan, 0, 0).number == KB_ACCEPTED && kb_scan_shown(&scan, 0, 0).account == KB_NO_ACCOUNT);
    CHECK(kb_scan_feed(&scan, NULL, 0).number == KB_ACCEPTED);
    CHECK(kb_scan_feed(&scan, &account, 1).taken == 1 && scan.pixels == 1);
    CHECK(finds(&scan, 0, 0, 0, 0, 0));
    CHECK(kb_scan_shown(&scan, 0, 0).number == KB_ACCEPTED && kb_scan_shown(&scan, 0, 0).account == 0);
    CHECK(kb_scan_write(&scan, file, 6).length == 6);
    CHECK(kb_scan_preview(&scan, 0, 0, 7).number == KB_SLOTS_EXCEEDED);
    CHECK(kb_scan_claim(&scan, 0, 0, 7) == KB_SLOTS_EXCEEDED && scan.tiles == 0);
}

void test_fresh(void)
{
    uint32_t slots[8], others[3] = {1, 2, 3};
    kb_scan scan = NO_SCAN;
    scan_bed_m(&scan, slots, 8);
    kb_scan before = scan;
    CHECK(kb_scan_fresh(&scan, KB_MORTON, 11, others, 3) == KB_ORDER_TOO_LARGE);
    CHECK(same(&scan, &before) && others[0] == 1 && others[2] == 3);
    CHECK(kb_scan_lookup(&scan, 0, 0).account == 5);

    CHECK(kb_scan_fresh(&scan, 7, 1, others, 3) == KB_ACCEPTED);
    CHECK(scan.kind == KB_MORTON && scan.order == 1 && scan.pixels == 0 && scan.tiles == 0);
    CHECK(scan.slots == others && scan.slots_length == 3 && others[0] == 0 && others[2] == 0);
}

void test_claim(void)
{
    uint32_t slots[6], kept[6];
    uint8_t raster[16];
    kb_scan scan = NO_SCAN;
    scan_bed_m(&scan, slots, 6);
    CHECK(kb_scan_claim(&scan, 4, 0, 9) == KB_ACCEPTED && scan.tiles == 5);
    CHECK(kb_scan_claim(&scan, 11, 0, 12) == KB_ACCEPTED && scan.tiles == 6);
    memcpy(kept, slots, sizeof slots);
    CHECK(kb_scan_claim(&scan, 5, 0, 12) == KB_SLOTS_EXCEEDED && scan.tiles == 6);
    CHECK(kb_scan_claim(&scan, 2, 1, 9) == KB_BLOCK_INVALID && scan.tiles == 6);
    CHECK(memcmp(kept, slots, sizeof slots) == 0);
    CHECK(kb_scan_decode(&scan, raster, 15) == KB_RASTER_LENGTH);
    CHECK(kb_scan_decode(&scan, raster, 16) == KB_ACCEPTED && raster[2] == 9 && raster[0] == 5);
    CHECK(kb_scan_claim(&scan, 0, 2, 0) == KB_ACCEPTED && scan.tiles == 0 && scan.pixels == 16);
}

/* Does a preview answer this number and count? */
static int previews(const kb_scan *scan, uint32_t corner, uint32_t size, uint32_t account, uint32_t number,
                    size_t tiles)
{
    kb_preview_answer preview = kb_scan_preview(scan, corner, size, account);
    return preview.number == number && preview.tiles == tiles;
}

/* Refusals in their order and each way that a claim can go, with the slots as they were; and a copy of the list that
   has other words behind it. */
void test_preview(void)
{
    const uint32_t copy[7] = {69, 7177, 8201, 12361, UINT32_MAX, UINT32_MAX, UINT32_MAX}, quarters[3] = {7, 1031, 3079};
    uint32_t slots[6], kept[6];
    kb_scan scan = NO_SCAN;
    scan_bed_m(&scan, slots, 6);
    kb_scan before = scan;
    memcpy(kept, slots, sizeof slots);
    CHECK(previews(&scan, 3, 0, 0, KB_ACCEPTED, 6));
    CHECK(previews(&scan, 3, 0, 9, KB_SLOTS_EXCEEDED, 0));
    CHECK(previews(&scan, 3, 0, 5, KB_ACCEPTED, 4));
    CHECK(previews(&scan, 4, 1, 9, KB_ACCEPTED, 4) && previews(&scan, 4, 1, 0, KB_ACCEPTED, 3));
    CHECK(previews(&scan, 0, 2, 63, KB_ACCEPTED, 1) && previews(&scan, 0, 2, 0, KB_ACCEPTED, 0));
    CHECK(previews(&scan, 3, 1, 64, KB_BLOCK_INVALID, 0) && previews(&scan, 3, 0, 64, KB_ACCOUNT_TOO_LARGE, 0));
    CHECK(same(&scan, &before) && memcmp(kept, slots, sizeof slots) == 0);
    CHECK(kb_preview(KB_ROWS, 2, 16, 4, copy, 6, 3, 0, 0).tiles == 6);
    CHECK(kb_preview(KB_ROWS, 2, 16, 4, copy, 6, 3, 0, 9).number == KB_SLOTS_EXCEEDED);
    CHECK(kb_preview(KB_ROWS, 2, 16, 4, copy, 7, 3, 0, 9).tiles == 7);
    CHECK(kb_preview(KB_MORTON, 1, 4, 3, quarters, 3, 2, 0, 7).tiles == 1);
    CHECK(kb_preview(KB_ROWS, 2, 16, 5, copy, 7, 3, 1, 64).number == KB_HIGH_BITS_SET);
    CHECK(kb_preview(KB_ROWS, 2, 16, 8, copy, 7, 3, 0, 9).number == KB_COUNT_ABOVE_SLOTS);
    CHECK(kb_preview(KB_ROWS, 11, 16, 8, copy, 7, 3, 0, 9).number == KB_ORDER_TOO_LARGE);
    CHECK(kb_preview(KB_ROWS, 0, 1, 0, NULL, 0, 0, 0, 0).number == KB_ACCEPTED);
}

/* Accounts that a byte would cut are refused. */
void test_accounts(void)
{
    static const uint64_t strange[] = {64, 254, 255, 256, 257, 256 + 9, 512, 65536, 65536 + 9, UINT32_MAX,
                                       (uint64_t)1 << 32, ((uint64_t)1 << 32) + 9, UINT64_MAX};
    uint32_t slots[8], kept[8];
    kb_scan scan = NO_SCAN;
    scan_bed_m(&scan, slots, 8);
    memcpy(kept, slots, sizeof slots);
    for (size_t i = 0; i < sizeof strange / sizeof *strange; i++) {
        CHECK(kb_scan_claim(&scan, 0, 1, strange[i]) == KB_ACCOUNT_TOO_LARGE && scan.tiles == 4);
        CHECK(kb_scan_preview(&scan, 0, 1, strange[i]).number == KB_ACCOUNT_TOO_LARGE);
        CHECK(kb_scan_rights(&scan, NULL, 0, 0, 0, strange[i]).number == KB_ASKER_INVALID);
        CHECK(memcmp(kept, slots, sizeof slots) == 0);
    }
    for (uint32_t account = 0; account < 255; account++)
        CHECK(kb_account_byte(account) == account);
    CHECK(kb_scan_rights(&scan, NULL, 0, 0, 0, 0).number == KB_ASKER_INVALID);
    CHECK(kb_scan_rights(&scan, NULL, 0, 0, 0, 5).yes == 1 && kb_scan_rights(&scan, NULL, 0, 0, 0, 9).yes == 0);
    CHECK(kb_scan_rights(&scan, NULL, 0, 3, 1, 12).yes == 0 && kb_scan_rights(&scan, NULL, 0, 1, 3, 12).yes == 1);
    CHECK(kb_scan_rights(&scan, NULL, 0, 4, 0, 5).number == KB_POINT_OUTSIDE);
}

/* No number is cut to 32 bits on its way: 2^32 is not 0, and 2^32 + 1 not 1. */
void test_wide(void)
{
    static const uint64_t wide[] = {UINT32_MAX, (uint64_t)1 << 32, ((uint64_t)1 << 32) + 1, UINT64_MAX};
    uint32_t slots[8], others[3];
    kb_scan scan = NO_SCAN;
    scan_bed_m(&scan, slots, 8);
    kb_scan before = scan;
    for (size_t i = 0; i < sizeof wide / sizeof *wide; i++) {
        CHECK(kb_number_word(wide[i]) == UINT32_MAX);
        CHECK(kb_scan_fresh(&scan, KB_ROWS, wide[i], others, 3) == KB_ORDER_TOO_LARGE);
        CHECK(kb_scan_lookup(&scan, wide[i], 0).number == KB_POINT_OUTSIDE);
        CHECK(kb_scan_lookup(&scan, 0, wide[i]).number == KB_POINT_OUTSIDE);
        CHECK(kb_scan_rights(&scan, NULL, 0, wide[i], 0, 5).number == KB_POINT_OUTSIDE);
        CHECK(kb_scan_rights(&scan, NULL, 0, 0, wide[i], 5).number == KB_POINT_OUTSIDE);
        CHECK(kb_scan_claim(&scan, wide[i], 0, 5) == KB_BLOCK_INVALID);
        CHECK(kb_scan_claim(&scan, 0, wide[i], 5) == KB_BLOCK_INVALID);
        CHECK(kb_scan_preview(&scan, wide[i], 0, 5).number == KB_BLOCK_INVALID);
        CHECK(kb_scan_preview(&scan, 0, wide[i], 5).number == KB_BLOCK_INVALID);
        CHECK(kb_scan_part(&scan, wide[i], 0).number == KB_BLOCK_INVALID);
        CHECK(kb_scan_part(&scan, 0, wide[i]).number == KB_BLOCK_INVALID);
        CHECK(kb_scan_shown(&scan, wide[i], 0).number == KB_BLOCK_INVALID);
        CHECK(kb_scan_shown(&scan, 0, wide[i]).number == KB_BLOCK_INVALID);
    }
    CHECK(same(&scan, &before) && kb_scan_check(&scan) == KB_ACCEPTED);
    CHECK(kb_scan_fresh(&scan, (uint64_t)1 << 32, 1, others, 3) == KB_ACCEPTED && scan.kind == KB_MORTON);
}

void test_file(void)
{
    uint32_t slots[8], others[4] = {1, 2, 3, 4};
    uint8_t file[KB_FILE_MOST(8)];
    kb_scan scan = NO_SCAN, again = NO_SCAN;
    scan_bed_m(&scan, slots, 8);
    CHECK(kb_scan_write(&scan, file, 31).number == KB_BYTES_TOO_FEW);
    CHECK(kb_scan_write(&scan, file, sizeof file).length == 32);

    kb_scan before = scan;
    CHECK(kb_scan_read(&scan, file, 31, others, 4) == KB_FILE_CUT_SHORT);
    CHECK(kb_scan_read(&scan, file, 32, others, 3) == KB_SLOTS_EXCEEDED);
    CHECK(same(&scan, &before) && others[0] == 1 && others[3] == 4);

    CHECK(kb_scan_read(&again, file, 32, others, 4) == KB_ACCEPTED);
    CHECK(again.kind == KB_ROWS && again.order == 2 && again.pixels == 16 && again.tiles == 4);
    CHECK(again.slots == others && again.slots_length == 4 && memcmp(others, slots, sizeof others) == 0);
    CHECK(kb_scan_feed(&again, bed_m, 1).number == KB_SCAN_FULL && again.tiles == 4);
    CHECK(kb_scan_lookup(&again, 3, 3).account == 9 && kb_scan_claim(&again, 12, 1, 0) == KB_ACCEPTED);

    kb_read_answer read = kb_read(file, 32, others, 4);
    uint32_t pixels = kb_extent(read.order).pixels;
    CHECK(kb_lookup(KB_ROWS, read.order, pixels, read.tiles, others, 4, 3, 3).account == 9);
    CHECK(kb_write(KB_ROWS, read.order, pixels, read.tiles, others, 4, file, 32).length == 32);
}

/* One map, one file: bed M scanned in Morton order, made by claims, and read has the file of M by rows. With a pixel
   more, or on a larger bed, it has another. */
void test_same_files(void)
{
    static const uint8_t morton_m[16] = {5, 5, 5, 5, 0, 0, 0, 9, 9, 0, 0, 0, 9, 9, 9, 9}, free_bed[16] = {0};
    static const uint32_t tiles[4][3] = {{12, 1, 9}, {8, 0, 9}, {7, 0, 9}, {0, 1, 5}};
    uint32_t slots[4][8];
    uint8_t file[32], other[KB_FILE_MOST(8)];
    kb_scan scan = NO_SCAN, ways[3] = {NO_SCAN, NO_SCAN, NO_SCAN};
    scan_bed_m(&scan, slots[3], 8);
    CHECK(kb_scan_write(&scan, file, sizeof file).length == 32);
    CHECK(kb_scan_fresh(ways, KB_MORTON, 2, slots[0], 8) == KB_ACCEPTED);
    CHECK(kb_scan_feed(ways, morton_m, 16).number == KB_ACCEPTED);
    CHECK(kb_scan_fresh(ways + 1, KB_ROWS, 2, slots[1], 8) == KB_ACCEPTED);
    CHECK(kb_scan_feed(ways + 1, free_bed, 16).number == KB_ACCEPTED);
    for (int i = 0; i < 4; i++)
        CHECK(kb_scan_claim(ways + 1, tiles[i][0], tiles[i][1], tiles[i][2]) == KB_ACCEPTED);
    CHECK(kb_scan_read(ways + 2, file, 32, slots[2], 8) == KB_ACCEPTED);
    for (int i = 0; i < 3; i++) {
        memset(other, 7, sizeof other);
        CHECK(kb_scan_write(ways + i, other, sizeof other).length == 32 && memcmp(other, file, 32) == 0);
        CHECK(kb_scan_claim(ways + i, 9, 0, 9) == KB_ACCEPTED);
        CHECK(kb_scan_write(ways + i, other, sizeof other).length == 36 && memcmp(other, file, 32) != 0);
        CHECK(kb_scan_claim(ways + i, 9, 0, 0) == KB_ACCEPTED);
        CHECK(kb_scan_write(ways + i, other, 32).length == 32 && memcmp(other, file, 32) == 0);
    }
    other[0] = 3;
    CHECK(kb_scan_read(&scan, other, 32, slots[2], 8) == KB_ACCEPTED && scan.order == 3 && scan.tiles == 4);
    CHECK(memcmp(slots[2], slots[3], sizeof slots[3]) == 0);
    memset(other, 7, sizeof other);
    CHECK(kb_scan_write(&scan, other, sizeof other).length == 32);
    CHECK(other[0] == 3 && memcmp(other + 1, file + 1, 31) == 0);
}

/* Rosters behind the tiles of bed M, each from its count on: entries that rise and entries that do not, with bytes
   missing or left over. A refused one leaves the slots and the scan as they were. */
void test_roster(void)
{
    static const struct { size_t length; uint8_t bytes[16]; uint32_t number; } rosters[] = {
        {11, {2, 5, 0, 0, 0, 4, 9, 0, 0, 0, 6}, KB_ACCEPTED},
        {11, {2, 9, 0, 0, 0, 6, 5, 0, 0, 0, 4}, KB_ROSTER_UNSORTED},
        {11, {2, 5, 0, 0, 0, 4, 5, 0, 0, 0, 4}, KB_ROSTER_UNSORTED},
        {16, {3, 5, 0, 0, 0, 4, 9, 0, 0, 0, 6, 9, 0, 0, 0, 6}, KB_ROSTER_UNSORTED},
        {12, {2, 9, 0, 0, 0, 6, 5, 0, 0, 0, 4, 0}, KB_ROSTER_UNSORTED},
        {11, {3, 9, 0, 0, 0, 6, 5, 0, 0, 0, 4}, KB_ROSTER_UNSORTED},
        {11, {2, 9, 0, 0, 0, 7, 5, 0, 0, 0, 4}, KB_ROSTER_UNSORTED},
        {10, {2, 9, 0, 0, 0, 6, 5, 0, 0, 0}, KB_FILE_CUT_SHORT},
        {11, {1, 9, 0, 0, 0, 6, 5, 0, 0, 0, 4}, KB_TRAILING_BYTES},
        {16, {3, 0, 0, 0, 0, 0, 5, 0, 0, 0, 4, 9, 0, 0, 0, 6}, KB_ROSTER_WRONG},
        {16, {3, 5, 0, 0, 0, 4, 7, 0, 0, 0, 0, 9, 0, 0, 0, 6}, KB_ROSTER_WRONG},
        {16, {3, 5, 0, 0, 0, 4, 9, 0, 0, 0, 6, 255, 0, 0, 0, 0}, KB_ROSTER_WRONG},
        {6, {1, 9, 0, 0, 0, 6}, KB_ROSTER_WRONG},
    };
    uint32_t slots[8], others[5];
    uint8_t file[21 + 16] = {0};
    kb_scan scan = NO_SCAN;
    scan_bed_m(&scan, slots, 8);
    CHECK(kb_scan_write(&scan, file, sizeof file).length == 32);
    CHECK(memcmp(file + 21, rosters[0].bytes, rosters[0].length) == 0);
    for (size_t i = 0; i < sizeof rosters / sizeof *rosters; i++) {
        kb_scan again = scan;
        memset(others, 0xee, sizeof others);
        memcpy(file + 21, rosters[i].bytes, rosters[i].length);
        uint32_t number = kb_scan_read(&again, file, 21 + rosters[i].length, others, 5);
        CHECK(number == rosters[i].number && same(&again, &scan) == (number != KB_ACCEPTED));
        for (size_t slot = 0; slot < 5; slot++)
            CHECK(others[slot] == (number == KB_ACCEPTED ? slots[slot] : 0xeeeeeeee));
        kb_read_answer read = kb_read(file, 21 + rosters[i].length, others, 5);
        CHECK(read.number == number && (number == KB_ACCEPTED || (read.order == 0 && read.tiles == 0)));
    }
}

/* Whether two lookups answered the same. */
static int alike(kb_lookup_answer one, kb_lookup_answer other)
{
    return one.number == other.number && one.account == other.account && one.corner == other.corner
           && one.size == other.size;
}

int finds(const kb_scan *scan, uint32_t column, uint32_t row, uint8_t account, uint32_t corner, uint32_t size)
{
    kb_lookup_answer named = {KB_ACCEPTED, account, corner, size};
    return alike(kb_scan_lookup(scan, column, row), named);
}

/* The block that each pixel's lookup names has just the pixels that look up to the same answer. */
static void finds_alike(const kb_scan *scan)
{
    uint32_t side = kb_extent(scan->order).side;
    for (uint32_t pixel = 0; pixel < side * side; pixel++) {
        kb_lookup_answer found = kb_scan_lookup(scan, pixel % side, pixel / side);
        CHECK(found.number == KB_ACCEPTED && kb_lookup_has(found, pixel % side, pixel / side));
        for (uint32_t other = 0; other < side * side; other++)
            CHECK(kb_lookup_has(found, other % side, other / side)
                  == alike(kb_scan_lookup(scan, other % side, other / side), found));
        CHECK(!kb_lookup_has(found, side, pixel / side) && !kb_lookup_has(found, pixel % side, side));
    }
}

void test_lookup(void)
{
    uint32_t slots[64];
    kb_scan scan = NO_SCAN;
    scan_bed_m(&scan, slots, 64);
    CHECK(finds(&scan, 1, 1, 5, 0, 1) && finds(&scan, 3, 1, 9, 7, 0) && finds(&scan, 3, 2, 9, 12, 1));
    CHECK(finds(&scan, 2, 0, 0, 4, 0));
    finds_alike(&scan);
    CHECK(kb_scan_claim(&scan, 7, 0, 0) == KB_ACCEPTED && finds(&scan, 2, 0, 0, 4, 1));
    finds_alike(&scan);
    CHECK(kb_scan_claim(&scan, 0, 2, 0) == KB_ACCEPTED && finds(&scan, 2, 0, 0, 0, 2));
    finds_alike(&scan);

    const kb_lookup_answer outside = KB_NO_LOOKUP, zero = {KB_ACCOUNT_ZERO, 0, 0, 0};
    CHECK(alike(kb_scan_lookup(&scan, 4, 0), outside) && !kb_lookup_has(outside, 0, 0));
    slots[0] = 0;
    scan.tiles = 1;
    CHECK(alike(kb_scan_lookup(&scan, 3, 3), zero) && !kb_lookup_has(zero, 0, 0));
}

/* What lies in a block at the edges: the last pixel of the largest bed, past it, and numbers that are no block. */
void test_lookup_has(void)
{
    const uint64_t past[3] = {1024, (uint64_t)1 << 32, UINT64_MAX};
    const kb_lookup_answer whole = {KB_ACCEPTED, 0, 0, 10}, last = {KB_ACCEPTED, 7, 1048575, 0};
    const kb_lookup_answer turned = {KB_ACCEPTED, 7, 5, 1}, larger = {KB_ACCEPTED, 0, 0, 11};
    const kb_lookup_answer off = {KB_ACCEPTED, 7, 1048576, 0};
    CHECK(kb_lookup_has(whole, 0, 0) && kb_lookup_has(whole, 1023, 1023) && kb_lookup_has(last, 1023, 1023));
    CHECK(!kb_lookup_has(last, 1022, 1023) && !kb_lookup_has(last, 1023, 1022));
    for (int i = 0; i < 3; i++)
        CHECK(!kb_lookup_has(whole, past[i], 0) && !kb_lookup_has(whole, 0, past[i]));
    CHECK(!kb_lookup_has(turned, 3, 0) && !kb_lookup_has(turned, 2, 0));
    CHECK(!kb_lookup_has(larger, 0, 0) && !kb_lookup_has(off, 0, 0));
}

/* Each block of a finished scan shows what its pixels are. */
static void shows(const kb_scan *scan)
{
    uint8_t raster[256];
    kb_extent_answer bed = kb_extent(scan->order);
    CHECK(bed.pixels <= sizeof raster && kb_scan_decode(scan, raster, bed.pixels) == KB_ACCEPTED);
    for (uint32_t size = 0; size <= scan->order; size++)
        for (uint32_t corner = 0; corner < bed.pixels; corner += kb_extent(size).pixels) {
            kb_shown_answer shown = kb_scan_shown(scan, corner, size);
            kb_point_answer first = kb_point(scan->order, corner);
            uint8_t account = raster[first.row * bed.side + first.column];
            for (uint32_t morton = corner; morton < corner + kb_extent(size).pixels; morton++) {
                kb_point_answer at = kb_point(scan->order, morton);
                if (raster[at.row * bed.side + at.column] != account)
                    account = KB_NO_ACCOUNT;
            }
            CHECK(shown.number == KB_ACCEPTED && shown.account == account && shown.scanned == 1);
            CHECK(account != KB_NO_ACCOUNT || shown.length > 0);
        }
}

void test_shown(void)
{
    uint32_t slots[64];
    kb_scan scan = NO_SCAN;
    scan_bed_m(&scan, slots, 64);
    shows(&scan);
    kb_shown_answer shown = kb_scan_shown(&scan, 1, 0);
    CHECK(kb_scan_part(&scan, 1, 0).length == 0 && shown.length == 0 && shown.account == 5);
    shown = kb_scan_shown(&scan, 0, 1);
    CHECK(shown.length == 1 && shown.account == 5 && shown.tiles == slots);
    shown = kb_scan_shown(&scan, 4, 1);
    CHECK(shown.length == 1 && shown.account == KB_NO_ACCOUNT && shown.tiles == slots + 1);
    shown = kb_scan_shown(&scan, 5, 0);
    CHECK(shown.number == KB_ACCEPTED && shown.length == 0 && shown.account == 0);
    shown = kb_scan_shown(&scan, 1, 1);
    CHECK(shown.number == KB_BLOCK_INVALID && shown.length == 0 && shown.account == KB_NO_ACCOUNT);
    CHECK(shown.tiles == slots && shown.scanned == 0);
    slots[0] = 0;
    shown = kb_scan_shown(&scan, 0, 0);
    CHECK(shown.number == KB_ACCOUNT_ZERO && shown.length == 0 && shown.account == KB_NO_ACCOUNT);
    CHECK(shown.tiles == slots && shown.scanned == 0);
}

/* Claims one after another, each previewed and then made through the scan alone, beside a plain bed. */
void test_many_claims(void)
{
    static uint32_t slots[256];
    uint8_t plain[256] = {0}, raster[256];
    uint32_t seed = 1;
    kb_scan scan = NO_SCAN;
    CHECK(kb_scan_fresh(&scan, KB_MORTON, 4, slots, 256) == KB_ACCEPTED);
    CHECK(kb_scan_feed(&scan, plain, 256).number == KB_ACCEPTED);
    for (int turn = 0; turn < 400; turn++) {
        seed = seed * 1664525 + 1013904223;
        uint32_t account = seed >> 28 & 3, size = seed >> 24 & 3, column = seed >> 16 & 15, row = seed >> 12 & 15;
        kb_block_answer block = kb_block(4, column, row, size);
        CHECK(block.number == KB_ACCEPTED);
        kb_preview_answer preview = kb_scan_preview(&scan, block.corner, block.size, account);
        CHECK(kb_scan_claim(&scan, block.corner, block.size, account) == KB_ACCEPTED);
        CHECK(preview.number == KB_ACCEPTED && preview.tiles == scan.tiles);
        for (uint32_t r = 0; r < 16; r++)
            for (uint32_t c = 0; c < 16; c++)
                if (c >> size == column >> size && r >> size == row >> size)
                    plain[r * 16 + c] = (uint8_t)account;
        CHECK(kb_scan_decode(&scan, raster, 256) == KB_ACCEPTED && memcmp(raster, plain, 256) == 0);
        CHECK(kb_scan_lookup(&scan, column, row).account == account);
        if (turn % 20 == 0)
            shows(&scan);
        if (turn % 100 == 0)
            finds_alike(&scan);
    }
    CHECK(kb_scan_check(&scan) == KB_ACCEPTED && scan.pixels == 256);
}
