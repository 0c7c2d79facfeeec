/* Unscanned is not free: what the calls that are handed a scan's record answer before it has every pixel, in both kinds
   of scan. */
#include "test.h"

#include <string.h>

/* Bed M of the rules, by rows and in Morton order. */
static const uint8_t bed_m[2][16] = {{5, 5, 0, 0, 5, 5, 0, 9, 9, 0, 9, 9, 0, 0, 9, 9},
                                     {5, 5, 5, 5, 0, 0, 0, 9, 9, 0, 0, 0, 9, 9, 9, 9}};

/* Scans the first seven pixels of bed M: in both kinds these are its north-western quarter, which is a tile, and all of
   the north-eastern one but (3, 1), which is next. */
static void scan_seven(kb_scan *scan, uint32_t kind, uint32_t *slots, size_t slots_length)
{
    CHECK(kb_scan_fresh(scan, kind, 2, slots, slots_length) == KB_ACCEPTED);
    CHECK(kb_scan_feed(scan, bed_m[kind], 7).taken == 7);
    CHECK(scan->kind == kind && scan->pixels == 7 && scan->tiles == 1 && slots[0] == 69);
}

/* Is a pixel refused as unscanned, whoever asks? */
static int unscanned_at(const kb_scan *scan, uint32_t column, uint32_t row)
{
    kb_lookup_answer found = kb_scan_lookup(scan, column, row);
    kb_rights_answer student = kb_scan_rights(scan, NULL, 0, column, row, 12);
    kb_rights_answer nobody = kb_scan_rights(scan, NULL, 0, column, row, 0);
    return found.number == KB_UNSCANNED && found.account == 0 && found.corner == 0 && found.size == 0
           && student.number == KB_UNSCANNED && student.yes == 0 && nobody.number == KB_UNSCANNED;
}

/* A free block ends where the scan does, and is larger once that has gone on. */
void test_unscanned(void)
{
    for (uint32_t kind = KB_ROWS; kind <= KB_MORTON; kind++) {
        const uint8_t nobodys[7] = {0};
        uint32_t slots[4];
        kb_scan scan = NO_SCAN;
        scan_seven(&scan, kind, slots, 4);
        CHECK(finds(&scan, 1, 1, 5, 0, 1) && finds(&scan, 2, 0, 0, 4, 0) && finds(&scan, 2, 1, 0, 6, 0));
        CHECK(unscanned_at(&scan, 3, 1) && unscanned_at(&scan, 0, 2) && unscanned_at(&scan, 3, 3));
        CHECK(kb_scan_lookup(&scan, 4, 1).number == KB_POINT_OUTSIDE);
        CHECK(kb_scan_rights(&scan, NULL, 0, 2, 0, 12).yes == 1);
        CHECK(kb_scan_rights(&scan, NULL, 0, 2, 0, 64).number == KB_ASKER_INVALID);
        CHECK(kb_scan_feed(&scan, nobodys, 1).taken == 1);
        CHECK(finds(&scan, 2, 0, 0, 4, 1) && finds(&scan, 3, 1, 0, 4, 1) && unscanned_at(&scan, 0, 2));
        CHECK(kb_scan_claim(&scan, 0, 1, 0) == KB_ACCEPTED && finds(&scan, 0, 0, 0, 0, 1));
        CHECK(kb_scan_feed(&scan, nobodys, 7).taken == 7);
        CHECK(finds(&scan, 0, 0, 0, 0, 1) && finds(&scan, 2, 2, 0, 12, 0) && unscanned_at(&scan, 3, 3));
        CHECK(kb_scan_feed(&scan, nobodys, 1).taken == 1 && finds(&scan, 0, 0, 0, 0, 2));
    }
}

/* A claim in the middle of a scan, which then goes on to its end. */
void test_unscanned_claim(void)
{
    static const uint32_t unscanned[][2] = {{7, 0}, {4, 1}, {8, 0}, {12, 1}, {0, 2}};
    static const uint32_t whole[5] = {69, 4108, 7177, 8201, 12361};
    for (uint32_t kind = KB_ROWS; kind <= KB_MORTON; kind++) {
        uint32_t slots[8], kept[8];
        uint8_t file[KB_FILE_MOST(8)] = {0};
        kb_scan scan = NO_SCAN;
        scan_seven(&scan, kind, slots, 8);
        CHECK(kb_scan_claim(&scan, 4, 0, 12) == KB_ACCEPTED && scan.tiles == 2);
        CHECK(scan.kind == kind && scan.order == 2 && scan.pixels == 7);
        kb_scan before = scan;
        memcpy(kept, slots, sizeof slots);
        for (size_t i = 0; i < sizeof unscanned / sizeof *unscanned; i++)
            for (uint32_t account = 0; account <= 64; account += 32) {
                uint32_t corner = unscanned[i][0], size = unscanned[i][1];
                kb_preview_answer preview = kb_scan_preview(&scan, corner, size, account);
                CHECK(preview.number == KB_UNSCANNED && preview.tiles == 0);
                CHECK(kb_scan_claim(&scan, corner, size, account) == KB_UNSCANNED);
            }
        CHECK(kb_scan_claim(&scan, 4, 2, 64) == KB_BLOCK_INVALID);
        CHECK(kb_scan_claim(&scan, 4, 0, 64) == KB_ACCOUNT_TOO_LARGE);
        CHECK(kb_scan_write(&scan, file, sizeof file).number == KB_UNSCANNED && file[0] == 0);
        CHECK(same(&scan, &before) && memcmp(kept, slots, sizeof slots) == 0);
        CHECK(kb_scan_feed(&scan, bed_m[kind] + 7, 9).taken == 9 && scan.tiles == 5);
        CHECK(memcmp(slots, whole, sizeof whole) == 0 && slots[5] == 0);
        CHECK(kb_scan_write(&scan, file, sizeof file).length == 41 && file[0] == 2);
    }
}

/* What a block shows where the scan has not reached all of it, and where the record is broken. */
void test_unscanned_shown(void)
{
    for (uint32_t kind = KB_ROWS; kind <= KB_MORTON; kind++) {
        uint32_t slots[4];
        kb_scan scan = NO_SCAN;
        scan_seven(&scan, kind, slots, 4);
        kb_shown_answer shown = kb_scan_shown(&scan, 0, 1);
        CHECK(shown.account == 5 && shown.scanned == 1 && shown.length == 1);
        shown = kb_scan_shown(&scan, 6, 0);
        CHECK(shown.account == 0 && shown.scanned == 1 && shown.length == 0);
        shown = kb_scan_shown(&scan, 4, 1);
        CHECK(shown.number == KB_ACCEPTED && shown.account == KB_NO_ACCOUNT && shown.scanned == 0 && shown.length == 0);
        shown = kb_scan_shown(&scan, 0, 2);
        CHECK(shown.number == KB_ACCEPTED && shown.account == KB_NO_ACCOUNT && shown.scanned == 0);
        CHECK(shown.length == 1 && shown.tiles == slots);

        /* Pixels that do not go with the list. */
        const uint32_t pixels[] = {17, UINT32_MAX, 3, 0};
        for (int i = 0; i < 4; i++) {
            scan.pixels = pixels[i];
            shown = kb_scan_shown(&scan, 0, 1);
            CHECK(shown.number == (i < 2 ? KB_SCANNED_TOO_LARGE : KB_TILE_UNSCANNED) && shown.tiles == slots);
            CHECK(shown.length == 0 && shown.account == KB_NO_ACCOUNT && shown.scanned == 0);
            CHECK(kb_scan_shown(&scan, 1, 1).number == shown.number);
        }
    }
}

/* A third map has the first one's record; what the second has not scanned counts as nobody's there. */
void test_unscanned_combine(void)
{
    for (uint32_t kind = KB_ROWS; kind <= KB_MORTON; kind++) {
        const uint8_t zone[2] = {3, 3};
        uint32_t slots1[4], slots2[4], out[4], others[8];
        kb_scan first = NO_SCAN, second = NO_SCAN, third = NO_SCAN;
        scan_seven(&first, kind, slots1, 4);
        CHECK(kb_scan_fresh(&second, KB_MORTON, 2, slots2, 4) == KB_ACCEPTED);
        CHECK(kb_scan_feed(&second, zone, 2).number == KB_ACCEPTED && second.tiles == 2);
        CHECK(kb_scan_combine(&third, KB_INSIDE, &first, &second, out, 4) == KB_ACCEPTED);
        CHECK(third.kind == kind && third.order == 2 && third.pixels == 7 && third.tiles == 2 && third.slots == out);
        CHECK(out[0] == 5 && out[1] == 1029 && finds(&third, 0, 1, 0, 2, 0) && unscanned_at(&third, 3, 1));
        CHECK(kb_scan_combine(&third, KB_OUTSIDE, &first, &second, others, 8) == KB_ACCEPTED);
        CHECK(third.kind == kind && third.pixels == 7 && third.tiles == 2 && others[0] == 2053 && others[1] == 3077);
        CHECK(kb_scan_feed(&third, bed_m[kind] + 7, 9).taken == 9 && third.pixels == 16 && third.tiles == 5);

        CHECK(kb_scan_combine(&second, KB_INSIDE, &second, &first, out, 4) == KB_ACCEPTED);
        CHECK(second.kind == KB_MORTON && second.pixels == 2 && second.tiles == 2 && out[0] == 3 && out[1] == 1027);
        CHECK(finds(&second, 1, 0, 3, 1, 0) && unscanned_at(&second, 0, 1));
    }
}

/* The calls that are handed a record. */
enum { LOOKUP, RIGHTS, CLAIM, PREVIEW, WRITE };

#define LENT 3

/* What they are handed. */
struct call {
    uint32_t kind, order, pixels;
    size_t tiles;
    uint32_t slots[LENT], column, row, corner, size;
    uint8_t account, file[16];
    size_t file_length;
};

/* Makes a call; returns its number and, added up, the rest of its answer. */
static uint32_t make(int which, struct call *c, size_t *rest)
{
    if (which == LOOKUP) {
        kb_lookup_answer found = kb_lookup(c->kind, c->order, c->pixels, c->tiles, c->slots, LENT, c->column, c->row);
        *rest = (size_t)found.account + found.corner + found.size;
        return found.number;
    }
    if (which == RIGHTS) {
        kb_rights_answer right = kb_rights(NULL, 0, c->kind, c->order, c->pixels, c->tiles, c->slots, LENT,
                                           c->column, c->row, c->account);
        *rest = right.yes;
        return right.number;
    }
    if (which == CLAIM) {
        kb_claim_answer claimed = kb_claim(c->kind, c->order, c->pixels, c->tiles, c->slots, LENT, c->corner, c->size,
                                           c->account);
        *rest = claimed.tiles;
        return claimed.number;
    }
    if (which == PREVIEW) {
        kb_preview_answer preview = kb_preview(c->kind, c->order, c->pixels, c->tiles, c->slots, LENT,
                                               c->corner, c->size, c->account);
        *rest = preview.tiles;
        return preview.number;
    }
    kb_write_answer written = kb_write(c->kind, c->order, c->pixels, c->tiles, c->slots, LENT, c->file, c->file_length);
    *rest = written.length;
    return written.number;
}

/* Does a call answer this number? Refused, the rest of the answer must be 0, and slots and bytes as they were. */
static int answers(int which, struct call call, uint32_t number)
{
    struct call left = call;
    size_t rest;
    if (make(which, &left, &rest) != number)
        return 0;
    return number == KB_ACCEPTED || (rest == 0 && memcmp(left.slots, call.slots, sizeof call.slots) == 0
                                     && memcmp(left.file, call.file, sizeof call.file) == 0);
}

/* A claim and its preview answer the same number. */
static int all_answer(struct call call, uint32_t lookup, uint32_t rights, uint32_t claim, uint32_t write)
{
    return answers(LOOKUP, call, lookup) && answers(RIGHTS, call, rights) && answers(CLAIM, call, claim)
           && answers(PREVIEW, call, claim) && answers(WRITE, call, write);
}

/* The order of the checks: with all broken at once, each is mended in turn. The list is one tile on the north-western
   quarter, which takes 6 pixels by rows and 4 in Morton order; any number but 0 is that kind. */
void test_unscanned_checks(void)
{
    static const uint32_t kinds[] = {KB_ROWS, KB_MORTON, 2, 256, UINT32_MAX};
    for (size_t i = 0; i < sizeof kinds / sizeof *kinds; i++) {
        const uint32_t enough = kinds[i] == KB_ROWS ? 6 : 4;
        struct call call = {kinds[i], 11, 17, LENT + 1, {64, UINT32_MAX, UINT32_MAX}, 4, 0, 16, 0, 64, {0}, 14};
        CHECK(all_answer(call, KB_ORDER_TOO_LARGE, KB_ORDER_TOO_LARGE, KB_ORDER_TOO_LARGE, KB_ORDER_TOO_LARGE));
        call.order = 2;
        CHECK(all_answer(call, KB_COUNT_ABOVE_SLOTS, KB_COUNT_ABOVE_SLOTS, KB_COUNT_ABOVE_SLOTS, KB_COUNT_ABOVE_SLOTS));
        call.tiles = 1;
        CHECK(all_answer(call, KB_ACCOUNT_ZERO, KB_ACCOUNT_ZERO, KB_ACCOUNT_ZERO, KB_ACCOUNT_ZERO));
        call.slots[0] = 69;
        CHECK(all_answer(call, KB_SCANNED_TOO_LARGE, KB_SCANNED_TOO_LARGE, KB_SCANNED_TOO_LARGE, KB_SCANNED_TOO_LARGE));
        call.pixels = enough - 1;
        CHECK(all_answer(call, KB_TILE_UNSCANNED, KB_TILE_UNSCANNED, KB_TILE_UNSCANNED, KB_TILE_UNSCANNED));
        call.pixels = enough;
        CHECK(all_answer(call, KB_POINT_OUTSIDE, KB_POINT_OUTSIDE, KB_BLOCK_INVALID, KB_UNSCANNED));
        call.column = 2, call.row = 1, call.corner = 4, call.size = 1;
        CHECK(all_answer(call, KB_UNSCANNED, KB_UNSCANNED, KB_UNSCANNED, KB_UNSCANNED));
        call.column = 1, call.corner = 3, call.size = 0;
        CHECK(all_answer(call, KB_ACCEPTED, KB_ASKER_INVALID, KB_ACCOUNT_TOO_LARGE, KB_UNSCANNED));
        call.account = 9;
        CHECK(all_answer(call, KB_ACCEPTED, KB_ACCEPTED, KB_SLOTS_EXCEEDED, KB_UNSCANNED));
        call.pixels = 16;
        CHECK(all_answer(call, KB_ACCEPTED, KB_ACCEPTED, KB_SLOTS_EXCEEDED, KB_BYTES_TOO_FEW));
        call.account = 5, call.file_length = 15;
        CHECK(all_answer(call, KB_ACCEPTED, KB_ACCEPTED, KB_ACCEPTED, KB_ACCEPTED));
    }
}

/* An empty bed of the largest order, one pixel before and past its end. */
void test_unscanned_edges(void)
{
    const uint32_t all = KB_MOST_SLOTS;
    uint8_t file[6] = {0};
    for (uint32_t kind = KB_ROWS; kind <= KB_MORTON; kind++) {
        CHECK(kb_lookup(kind, 10, 0, 0, NULL, 0, 0, 0).number == KB_UNSCANNED);
        CHECK(kb_lookup(kind, 10, 1, 0, NULL, 0, 0, 0).number == KB_ACCEPTED);
        CHECK(kb_lookup(kind, 10, all - 1, 0, NULL, 0, 1023, 1023).number == KB_UNSCANNED);
        kb_lookup_answer beside = kb_lookup(kind, 10, all - 1, 0, NULL, 0, 1022, 1023);
        CHECK(beside.number == KB_ACCEPTED && beside.size == 0 && beside.corner == all - 2);
        CHECK(kb_lookup(kind, 10, all - 1, 0, NULL, 0, 511, 1023).size == 9);
        CHECK(kb_lookup(kind, 10, all, 0, NULL, 0, 1023, 1023).size == 10);
        CHECK(kb_lookup(kind, 10, all + 1, 0, NULL, 0, 0, 0).number == KB_SCANNED_TOO_LARGE);
        /* Four pixels of order 2: the first row, or the north-western quarter. */
        CHECK(kb_lookup(kind, 2, 4, 0, NULL, 0, 3, 0).number == (kind == KB_ROWS ? KB_ACCEPTED : KB_UNSCANNED));
        CHECK(kb_lookup(kind, 2, 4, 0, NULL, 0, 0, 1).number == (kind == KB_ROWS ? KB_UNSCANNED : KB_ACCEPTED));
        CHECK(kb_rights(NULL, 0, kind, 10, all - 1, 0, NULL, 0, 1023, 1023, 1).number == KB_UNSCANNED);
        CHECK(kb_rights(NULL, 0, kind, 10, all, 0, NULL, 0, 1023, 1023, 1).yes == 1);
        CHECK(kb_claim(kind, 10, all - 1, 0, NULL, 0, 0, 10, 0).number == KB_UNSCANNED);
        CHECK(kb_claim(kind, 10, all, 0, NULL, 0, 0, 10, 0).number == KB_ACCEPTED);
        CHECK(kb_preview(kind, 10, all - 1, 0, NULL, 0, 0, 10, 7).number == KB_UNSCANNED);
        CHECK(kb_preview(kind, 10, all, 0, NULL, 0, 0, 10, 7).number == KB_SLOTS_EXCEEDED);
        CHECK(kb_write(kind, 10, all - 1, 0, NULL, 0, file, 6).number == KB_UNSCANNED && file[0] == 0);
        CHECK(kb_write(kind, 10, all + 1, 0, NULL, 0, file, 6).number == KB_SCANNED_TOO_LARGE && file[0] == 0);
        CHECK(kb_write(kind, 10, all, 0, NULL, 0, file, 6).length == 6 && file[0] == 10);
        file[0] = 0;
    }
}

#define ORDER 3
#define SIDE 8
#define PIXELS 64

/* A plain bed beside the scan, by Morton number. */
struct plain {
    uint32_t kind, pixels;
    uint8_t accounts[PIXELS];
};

static int is_scanned(const struct plain *bed, uint32_t morton)
{
    kb_point_answer at = kb_point(ORDER, morton);
    return (bed->kind == KB_ROWS ? at.row * SIDE + at.column : morton) < bed->pixels;
}

/* The account of a whole block, KB_NO_ACCOUNT if it has not one, -1 if it is not wholly scanned. */
static int account_of(const struct plain *bed, uint32_t corner, uint32_t size)
{
    int account = bed->accounts[corner];
    for (uint32_t morton = corner; morton < corner + kb_extent(size).pixels; morton++) {
        if (!is_scanned(bed, morton))
            return -1;
        if (bed->accounts[morton] != bed->accounts[corner])
            account = KB_NO_ACCOUNT;
    }
    return account;
}

/* Each block shows what the plain bed has there, and can be claimed and released just if it is wholly scanned. */
static void blocks_agree(const kb_scan *scan, const struct plain *bed)
{
    for (uint32_t size = 0; size <= ORDER; size++)
        for (uint32_t corner = 0; corner < PIXELS; corner += kb_extent(size).pixels) {
            int account = account_of(bed, corner, size);
            uint32_t number = account < 0 ? KB_UNSCANNED : KB_ACCEPTED;
            kb_shown_answer shown = kb_scan_shown(scan, corner, size);
            kb_part_tiles_answer part = kb_scan_part(scan, corner, size);
            CHECK(shown.number == KB_ACCEPTED && shown.scanned == (account >= 0));
            CHECK(shown.account == (account < 0 ? KB_NO_ACCOUNT : account));
            CHECK(shown.tiles == part.tiles && shown.length == part.length);
            CHECK(kb_scan_preview(scan, corner, size, 7).number == number);
            CHECK(kb_scan_preview(scan, corner, size, 0).number == number);
        }
}

/* Each lookup names the largest block with the pixel that is wholly scanned and has one account. */
static void lookups_agree(const kb_scan *scan, const struct plain *bed)
{
    for (uint32_t morton = 0; morton < PIXELS; morton++) {
        kb_point_answer at = kb_point(ORDER, morton);
        uint32_t corner = morton, size = 0;
        if (!is_scanned(bed, morton)) {
            CHECK(unscanned_at(scan, at.column, at.row));
            continue;
        }
        for (uint32_t larger = 1; larger <= ORDER; larger++) {
            kb_block_answer block = kb_block(ORDER, at.column, at.row, larger);
            int account = account_of(bed, block.corner, larger);
            if (account >= 0 && account != KB_NO_ACCOUNT)
                corner = block.corner, size = larger;
        }
        CHECK(finds(scan, at.column, at.row, bed->accounts[morton], corner, size));
        CHECK(kb_scan_rights(scan, NULL, 0, at.column, at.row, 7).number == KB_ACCEPTED);
    }
}

/* Claims a block, which is refused just if it is not wholly scanned, and then leaves all as it was. */
static void claim_both(kb_scan *scan, struct plain *bed, uint32_t corner, uint32_t size, uint8_t account)
{
    uint32_t kept[PIXELS];
    kb_scan before = *scan;
    memcpy(kept, scan->slots, sizeof kept);
    if (account_of(bed, corner, size) < 0) {
        CHECK(kb_scan_claim(scan, corner, size, account) == KB_UNSCANNED);
        CHECK(same(scan, &before) && memcmp(kept, scan->slots, sizeof kept) == 0);
    } else {
        CHECK(kb_scan_claim(scan, corner, size, account) == KB_ACCEPTED);
        CHECK(scan->kind == before.kind && scan->order == before.order && scan->pixels == before.pixels);
        memset(bed->accounts + corner, account, kb_extent(size).pixels);
    }
}

/* Scans of both kinds beside a plain bed, a claim after each pixel, and everything asked after each. */
void test_many_unscanned(void)
{
    static uint32_t slots[PIXELS];
    static uint8_t file[KB_FILE_MOST(PIXELS)];
    uint32_t seed = 3;
    for (uint32_t kind = KB_ROWS; kind <= KB_MORTON; kind++) {
        struct plain bed = {kind, 0, {0}};
        kb_scan scan = NO_SCAN;
        CHECK(kb_scan_fresh(&scan, kind, ORDER, slots, PIXELS) == KB_ACCEPTED);
        while (bed.pixels < PIXELS) {
            uint32_t place = bed.pixels++;
            uint32_t morton = kind == KB_ROWS ? kb_morton(ORDER, place % SIDE, place / SIDE).morton : place;
            bed.accounts[morton] = morton / 4 % 3 == 0 ? 9 : morton / 16 == 2 ? 5 : 0;
            CHECK(kb_scan_feed(&scan, bed.accounts + morton, 1).number == KB_ACCEPTED && scan.pixels == bed.pixels);
            blocks_agree(&scan, &bed);
            lookups_agree(&scan, &bed);
            CHECK(kb_scan_write(&scan, file, sizeof file).number == (bed.pixels < PIXELS ? KB_UNSCANNED : KB_ACCEPTED));
            seed = seed * 1664525 + 1013904223;
            uint32_t size = seed >> 28 & 1, corner = seed >> 20 & (PIXELS - 1) & ~(kb_extent(size).pixels - 1);
            claim_both(&scan, &bed, corner, size, seed >> 16 & 1 ? 9 : 0);
        }
        blocks_agree(&scan, &bed);
        lookups_agree(&scan, &bed);
    }
}
