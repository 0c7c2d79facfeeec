/* The tables of the opening checks, of refused lists and of short ones. */
#include "bench.h"
#include "builds.h"
#include "straight.h"

#include <string.h>

/* A cell: the check of the bed's list, in which the account of one word is 0. */
static void check_refused(struct bench *b, size_t bad, size_t units)
{
    struct timing ours, straight;
    uint32_t word = b->list[bad];
    b->list[bad] &= ~63u;
    BOTH(ours, refused(kb_check(b->order, b->tiles, b->list, b->tiles), KB_ACCOUNT_ZERO),
         straight, refused(straight_check(b->order, b->tiles, b->list, b->tiles), KB_ACCOUNT_ZERO));
    b->list[bad] = word;
    cell(&ours, &straight, units);
}

/* What is done with a scan half done, each by the library and by straightforward C: the list check alone; the opening
   checks alone, by a lookup outside the bed, which is refused right behind them; the next row fed, and then the list
   put back; the list put back alone; a lookup. */
enum { CHECK, CHECK_C, OPEN, OPEN_C, FEED, FEED_C, PUT_BACK, LOOKUP, LOOKUP_C, WAYS };

static void put_back(struct bench *b) { memcpy(b->slots, b->list, b->tiles * sizeof *b->slots); }

static kb_feed_answer feed_row(struct bench *b, feed_call *feed)
{
    size_t side = (size_t)1 << b->order;
    return feed(KB_ROWS, b->order, b->scanned, b->tiles, b->slots, b->room, b->rows + b->scanned, side);
}

static void half_once(struct bench *b, int way)
{
    uint32_t order = b->order, scanned = b->scanned, side = 1u << order, at = side / 3, *slots = b->slots;
    size_t tiles = b->tiles, m = b->room;
    switch (way) {
    case CHECK: must(kb_check(order, tiles, slots, m)); break;
    case CHECK_C: must(straight_check(order, tiles, slots, m)); break;
    case OPEN:
        refused(kb_lookup(KB_ROWS, order, scanned, tiles, slots, m, side, 0).number, KB_POINT_OUTSIDE);
        break;
    case OPEN_C:
        refused(straight_lookup(KB_ROWS, order, scanned, tiles, slots, m, side, 0).number, KB_POINT_OUTSIDE);
        break;
    case FEED: must(feed_row(b, kb_feed).number), put_back(b); break;
    case FEED_C: must(feed_row(b, straight_feed).number), put_back(b); break;
    case PUT_BACK: put_back(b); break;
    case LOOKUP: must(kb_lookup(KB_ROWS, order, scanned, tiles, slots, m, at, at).number); break;
    default: must(straight_lookup(KB_ROWS, order, scanned, tiles, slots, m, at, at).number);
    }
}

/* Straightforward C leaves the slots that the library leaves when it feeds the row. */
static void same_row(struct bench *b)
{
    put_back(b);
    size_t tiles = feed_row(b, kb_feed).tiles;
    memcpy(b->other, b->slots, tiles * sizeof *b->other);
    put_back(b);
    if (feed_row(b, straight_feed).tiles != tiles || memcmp(b->other, b->slots, tiles * sizeof *b->other)) {
        fprintf(stderr, "bench: straightforward C feeds a row to another list\n");
        exit(1);
    }
    put_back(b);
}

/* Five cells of a scan by rows half done: its tiles; the slots lent; 22 alone, which is the opening checks less the list
   check; the row fed, less the list put back; the lookup. */
static void half_done(struct bench *b)
{
    struct timing ways[WAYS];
    halve(b);
    same_row(b);
    in_turns(ways, WAYS, half_once, b);
    printf("| %zu | %zu ", b->tiles, b->room);
    cell_less(ways + OPEN, ways + CHECK, ways + OPEN_C, ways + CHECK_C, b->tiles);
    cell_less(ways + FEED, ways + PUT_BACK, ways + FEED_C, ways + PUT_BACK, 1);
    cell(ways + LOOKUP, ways + LOOKUP_C, 1);
}

void openings(struct bench *b)
{
    struct timing ours, straight;
    BOTH(ours, must(kb_check(b->order, b->tiles, b->list, b->tiles)),
         straight, must(straight_check(b->order, b->tiles, b->list, b->tiles)));
    cell(&ours, &straight, b->tiles);
    check_refused(b, b->tiles - 1, b->tiles);
    check_refused(b, 0, 1);
    half_done(b);
}

static void make_boards(struct bench *b, uint32_t order)
{
    b->order = order;
    make_bed(0, order, b->rows);
    b->tiles = bottom_up(order, b->rows, b->list);
}

void refused_lists(struct bench *b, uint32_t order)
{
    static const size_t places[] = {1, 2, 3, 4, 6, 8, 9, 10, 12, 14, 16, 24, 32, 48, 64, 128, 256, 512, 1024, 4096};
    make_boards(b, order);
    printf("\nRefused lists: the list of boards, in which one word is nobody's. Nanoseconds for a list check × the "
           "library's\ntime divided by that of straightforward C.\n\n| order | word | refused |\n|---|---|---|\n");
    for (size_t i = 0; i < sizeof places / sizeof *places; i++)
        if (places[i] + 5 < b->tiles) {
            printf("| %u | %zu ", order, places[i]);
            check_refused(b, places[i] - 1, 1);
            printf("|\n");
        }
    for (size_t last = b->tiles - 4; last <= b->tiles; last += 2) {
        printf("| %u | %zu ", order, last);
        check_refused(b, last - 1, 1);
        printf("|\n");
    }
    fflush(stdout);
}

#define MOST_TILES 1024

typedef uint32_t check_call(uint32_t, size_t, const uint32_t *, size_t);

/* Checks the first tiles of a list in stretches of so many, each a list by itself; returns how many stretches. */
static size_t check_stretches(const struct bench *b, check_call *check, size_t length)
{
    size_t calls = 0, end = b->tiles < MOST_TILES ? b->tiles : MOST_TILES;
    for (size_t from = 0; from + length <= end; from += length, calls++)
        must(check(b->order, length, b->list + from, length));
    return calls;
}

void short_lists(struct bench *b, uint32_t order)
{
    static const size_t lengths[] = {1, 2, 3, 4, 6, 8, 9, 12, 16, 24, 32};
    size_t count = sizeof lengths / sizeof *lengths;
    struct timing ours, straight;
    printf("\nShort lists: the first %d tiles of boards, cut in lists of so many tiles. Nanoseconds for a list check "
           "×\nthe library's time divided by that of straightforward C.\n\n| order ", MOST_TILES);
    fprintf(stderr, "short lists, order %u\n", order);
    for (size_t i = 0; i < count; i++)
        printf("| %zu ", lengths[i]);
    printf("|\n|---|---|---|---|---|---|---|---|---|---|---|---|\n| %u ", order);
    make_boards(b, order);
    for (size_t i = 0; i < count; i++) {
        size_t length = lengths[i];
        BOTH(ours, check_stretches(b, kb_check, length), straight, check_stretches(b, straight_check, length));
        cell(&ours, &straight, check_stretches(b, kb_check, length));
    }
    printf("|\n");
    fflush(stdout);
}
