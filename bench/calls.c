/* The tables of the other calls and of lookups. */
#include "bench.h"
#include "straight.h"

#include <string.h>

/* Straightforward C names the block that the library names. */
static void same_block(kb_lookup_answer ours, kb_lookup_answer other)
{
    if (ours.account != other.account || ours.corner != other.corner || ours.size != other.size) {
        fprintf(stderr, "bench: straightforward C names another block\n");
        exit(1);
    }
}

/* Three cells: lookup at a pixel, the quadrant part of a block, rights at the pixel by the old table. */
static void asks(struct bench *b, size_t m, uint32_t at, uint32_t corner)
{
    static const uint8_t old[KB_TABLE_LENGTH] = KB_OLD_TABLE;
    uint32_t order = b->order, scanned = b->scanned, *slots = b->slots;
    size_t tiles = b->tiles;
    struct timing ours, straight;
    same_block(kb_lookup(KB_ROWS, order, scanned, tiles, slots, m, at, at),
               straight_lookup(KB_ROWS, order, scanned, tiles, slots, m, at, at));
    BOTH(ours, must(kb_lookup(KB_ROWS, order, scanned, tiles, slots, m, at, at).number),
         straight, must(straight_lookup(KB_ROWS, order, scanned, tiles, slots, m, at, at).number));
    cell(&ours, &straight, tiles);
    BOTH(ours, must(kb_part(order, tiles, slots, m, corner, 2).number),
         straight, must(straight_part(order, tiles, slots, m, corner, 2).number));
    cell(&ours, &straight, tiles);
    BOTH(ours, must(kb_rights(old, sizeof old, KB_ROWS, order, scanned, tiles, slots, m, at, at, 9).number),
         straight, must(straight_rights(old, sizeof old, KB_ROWS, order, scanned, tiles, slots, m, at, at, 9).number));
    cell(&ours, &straight, tiles);
}

/* Two cells: a block of 16 pixels is previewed, and then claimed and released in turn. */
static void claims(struct bench *b, size_t m, uint32_t corner)
{
    uint32_t order = b->order, scanned = b->scanned, *slots = b->slots;
    size_t tiles = b->tiles, left = tiles;
    struct timing ours, straight;
    if (kb_preview(KB_ROWS, order, scanned, tiles, slots, m, corner, 2, 9).tiles
        != straight_preview(KB_ROWS, order, scanned, tiles, slots, m, corner, 2, 9).tiles) {
        fprintf(stderr, "bench: straightforward C previews another count\n");
        exit(1);
    }
    BOTH(ours, must(kb_preview(KB_ROWS, order, scanned, tiles, slots, m, corner, 2, 9).number),
         straight, must(straight_preview(KB_ROWS, order, scanned, tiles, slots, m, corner, 2, 9).number));
    cell(&ours, &straight, tiles);
    kb_preview_answer freed = kb_preview(KB_ROWS, order, scanned, tiles, slots, m, corner, 2, 0);
    must(freed.number);
    BOTH(ours, left = kb_claim(KB_ROWS, order, scanned, left, slots, m, corner, 2, 9).tiles;
         left = kb_claim(KB_ROWS, order, scanned, left, slots, m, corner, 2, 0).tiles,
         straight, left = straight_claim(KB_ROWS, order, scanned, left, slots, m, corner, 2, 9).tiles;
         left = straight_claim(KB_ROWS, order, scanned, left, slots, m, corner, 2, 0).tiles);
    if (left != freed.tiles) { /* after a refusal, whose count is 0, no claim leads back to this list */
        fprintf(stderr, "bench: a claim was refused\n");
        exit(1);
    }
    cell(&ours, &straight, 2 * tiles);
}

/* Two cells: the file of a finished scan is written and read. One half done has no file. */
static void files(struct bench *b, size_t m)
{
    uint32_t order = b->order, all = b->scanned, *slots = b->slots;
    size_t tiles = b->tiles;
    struct timing ours, straight;
    if (all < b->pixels) {
        printf("| - | - ");
        return;
    }
    size_t length = kb_write(KB_ROWS, order, all, tiles, slots, m, b->file, KB_FILE_MOST(b->pixels)).length;
    BOTH(ours, must(kb_write(KB_ROWS, order, all, tiles, slots, m, b->file, length).number),
         straight, must(straight_write(KB_ROWS, order, all, tiles, slots, m, b->file, length).number));
    cell(&ours, &straight, tiles);
    BOTH(ours, must(kb_read(b->file, length, slots, tiles).number),
         straight, must(straight_read(b->file, length, slots, tiles).number));
    cell(&ours, &straight, tiles);
}

void calls(struct bench *b)
{
    uint32_t order = b->order, side = 1u << order, at = side / 3, corner = straight_morton(at & ~3u, at & ~3u);
    size_t tiles = b->tiles, m = tiles + 40;
    struct timing ours, straight;
    uint32_t *slots = b->slots;
    memset(slots, 0, m * sizeof *slots);
    memcpy(slots, b->list, tiles * sizeof *slots);
    BOTH(ours, must(kb_check(order, tiles, slots, m)), straight, must(straight_check(order, tiles, slots, m)));
    cell(&ours, &straight, tiles);
    asks(b, m, at, corner);
    claims(b, m, corner);
    memcpy(slots, b->list, tiles * sizeof *slots);
    files(b, m);
    BOTH(ours, must(kb_decode(order, tiles, slots, m, b->raster, b->pixels)), straight,
         must(straight_decode(order, tiles, slots, m, b->raster, b->pixels)));
    cell(&ours, &straight, b->pixels);
    BOTH(ours, must(kb_fresh(KB_ROWS, order, slots, b->pixels).number),
         straight, must(straight_fresh(KB_ROWS, order, slots, b->pixels).number));
    cell(&ours, &straight, b->pixels);
}

/* The table of lookups on a bed with one held pixel, in its north-western corner: there, beside it, and in the free
   south-eastern quarter of the bed. */
void lookups(uint32_t lowest, uint32_t highest)
{
    static const uint32_t word = 9;
    struct timing ours, straight;
    printf("\nLookups: on a bed of one tile, a pixel's. Nanoseconds for a call, the list's check included × the "
           "library's time divided by that\nof straightforward C.\n\n"
           "| order | the held pixel | a free pixel beside it | a free quarter of the bed |\n|---|---|---|---|\n");
    for (uint32_t order = lowest; order <= highest; order++) {
        const uint32_t all = area(order), last = (1u << order) - 1, places[][2] = {{0, 0}, {1, 0}, {last, last}};
        printf("| %u ", order);
        for (size_t i = 0; i < sizeof places / sizeof *places; i++) {
            uint32_t column = places[i][0], row = places[i][1];
            same_block(kb_lookup(KB_ROWS, order, all, 1, &word, 1, column, row),
                       straight_lookup(KB_ROWS, order, all, 1, &word, 1, column, row));
            BOTH(ours, must(kb_lookup(KB_ROWS, order, all, 1, &word, 1, column, row).number),
                 straight, must(straight_lookup(KB_ROWS, order, all, 1, &word, 1, column, row).number));
            cell(&ours, &straight, 1);
        }
        printf("|\n");
    }
}
