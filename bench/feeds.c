/* The tables of feeds, by rows and in Morton order. */
#include "bench.h"
#include "builds.h"
#include "straight.h"

#include <string.h>

size_t scan(struct bench *b, fresh_call *fresh, feed_call *feed, uint32_t kind, size_t m, size_t piece)
{
    const uint8_t *accounts = kind == KB_ROWS ? b->rows : b->morton;
    kb_fresh_answer record = fresh(kind, b->order, b->slots, m);
    uint32_t pixels = record.pixels;
    size_t tiles = record.tiles;
    for (size_t done = 0; done < b->scanned; done += piece) {
        kb_feed_answer fed = feed(kind, b->order, pixels, tiles, b->slots, m, accounts + done, piece);
        must(fed.number);
        pixels = fed.pixels;
        tiles = fed.tiles;
    }
    return tiles;
}

void linked_scan(struct bench *b)
{
    size_t side = (size_t)1 << b->order;
    linked_fresh(b->linked);
    for (size_t row = 0; row < side; row++)
        linked_row(b->linked, b->rows + row * side);
}

#define ROWS 64 /* that are fed at a time; the whole bed where it has fewer */
#define MOST_FEEDS ((1 << KB_HIGHEST_ORDER) / ROWS)

static size_t some_rows(const struct bench *b)
{
    size_t side = (size_t)1 << b->order;
    return side * (side < ROWS ? side : ROWS);
}

/* What each feed of a scan by so many rows at a time is handed, kept: the record, and where in `words` the list begins.
   The lists stand one behind the other. */
static struct handed {
    uint32_t pixels;
    size_t tiles, at;
} handed[MOST_FEEDS];
static uint32_t *words;

static void keep_handed(struct bench *b)
{
    size_t piece = some_rows(b), used = 0;
    kb_scan scan = {0};
    must(kb_scan_fresh(&scan, KB_ROWS, b->order, b->slots, b->room));
    for (struct handed *at = handed; scan.pixels < b->pixels; at++) {
        *at = (struct handed){scan.pixels, scan.tiles, used};
        words = realloc(words, (used + scan.tiles + 1) * sizeof *words);
        if (!words)
            exit(1);
        memcpy(words + used, b->slots, scan.tiles * sizeof *words);
        used += scan.tiles;
        must(kb_scan_feed(&scan, b->rows + scan.pixels, piece).number);
    }
}

/* The opening checks of all these feeds and nothing else: a lookup outside the bed is refused right behind them. Each
   is made on the list and the record that its feed is handed. */
static void only_checks(const struct bench *b)
{
    uint32_t order = b->order, outside = 1u << order;
    size_t feeds = b->pixels / some_rows(b);
    for (const struct handed *at = handed; at < handed + feeds; at++)
        refused(kb_lookup(KB_ROWS, order, at->pixels, at->tiles, words + at->at, at->tiles, outside, 0).number,
                KB_POINT_OUTSIDE);
}

/* The ways to build a list that the tables compare: those of both, and those by rows alone. Among these are the opening
   checks of the feeds of some rows at a time. */
enum { OURS, STRAIGHT, OURS_BY_ROW, STRAIGHT_BY_ROW, OTHER, WAYS, BUILT = WAYS, SOME_ROWS, ONLY_CHECKS, ROWS_WAYS };

static void feed_once(struct bench *b, uint32_t kind, int way)
{
    size_t m = b->room, all = b->pixels, row = (size_t)1 << b->order;
    switch (way) {
    case OURS: scan(b, kb_fresh, kb_feed, kind, m, all); break;
    case STRAIGHT: scan(b, straight_fresh, straight_feed, kind, m, all); break;
    case OURS_BY_ROW: scan(b, kb_fresh, kb_feed, kind, m, row); break;
    case STRAIGHT_BY_ROW: scan(b, straight_fresh, straight_feed, kind, m, row); break;
    case BUILT: bottom_up(b->order, b->rows, b->other); break;
    case SOME_ROWS: scan(b, kb_fresh, kb_feed, kind, m, some_rows(b)); break;
    case ONLY_CHECKS: only_checks(b); break;
    default: kind == KB_ROWS ? linked_scan(b) : (void)morton_stack(b->morton, all, b->other);
    }
}

static void rows_once(struct bench *b, int way) { feed_once(b, KB_ROWS, way); }
static void morton_once(struct bench *b, int way) { feed_once(b, KB_MORTON, way); }

/* Three cells of a way to feed: nanoseconds for each pixel, and the ratios to plain C fed the same and to the way that
   keeps its list. */
static void feed_cells(const struct bench *b, const struct timing *ours, const struct timing *straight,
                       const struct timing *other)
{
    printf("| %.2f | %.2f | %.2f ", least(ours) / (double)b->pixels, ratio(ours, straight), ratio(ours, other));
}

/* Without checks: the time of the feeds of some rows less that of their opening checks alone, which is a way of its own
   in the same turns. The nanoseconds are the least of the one less the least of the other; the ratio is the median of
   the seven quotients, each of the difference in one turn and document 001's time in it. */
void feeds_by_rows(struct bench *b)
{
    struct timing ways[ROWS_WAYS];
    const struct timing *some = ways + SOME_ROWS, *checks = ways + ONLY_CHECKS;
    keep_handed(b);
    same(b, b->slots, scan(b, kb_fresh, kb_feed, KB_ROWS, b->room, some_rows(b)), "a scan by some rows at a time");
    in_turns(ways, ROWS_WAYS, rows_once, b);
    struct timing unchecked = less(some, checks);
    double all = (double)b->pixels;
    printf("| %zu ", b->room);
    feed_cells(b, ways + OURS, ways + STRAIGHT, ways + OTHER);
    printf("| %.2f ", ratio(ways + OURS, ways + BUILT));
    printf("| %.2f | %.2f ", least(some) / all, ratio(some, ways + OTHER));
    printf("| %.2f | %.2f ", (least(some) - least(checks)) / all, ratio(&unchecked, ways + OTHER));
    feed_cells(b, ways + OURS_BY_ROW, ways + STRAIGHT_BY_ROW, ways + OTHER);
}

void feeds_in_morton_order(struct bench *b)
{
    struct timing ways[WAYS];
    in_turns(ways, WAYS, morton_once, b);
    printf("| %zu ", b->room);
    feed_cells(b, ways + OURS, ways + STRAIGHT, ways + OTHER);
    feed_cells(b, ways + OURS_BY_ROW, ways + STRAIGHT_BY_ROW, ways + OTHER);
}
