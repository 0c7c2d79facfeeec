/* What the files that print the tables share. */
#ifndef BENCH_H
#define BENCH_H

#include "kingletbed.h"
#include "timing.h"

#include <stdio.h>
#include <stdlib.h>

/* A bed, its accounts in both orders of scanning, how many of its pixels are scanned, its list, how long its file is
   once one is written, and room to work in. */
struct bench {
    uint32_t order, scanned;
    size_t pixels, tiles, room, length;
    uint8_t *rows, *morton, *raster, *file, *copy;
    uint32_t *list, *slots, *other, *zones;
    struct linked *linked;
};

/* No call that is timed may be refused. */
static inline void must(uint32_t number)
{
    if (number) {
        fprintf(stderr, "bench: a call was refused: %s\n", kb_refusal_text(number));
        exit(1);
    }
}

/* A call that is timed on its way to a refusal must be refused so. */
static inline void refused(uint32_t number, uint32_t expected)
{
    if (number != expected) {
        fprintf(stderr, "bench: %s, not: %s\n", kb_refusal_text(number), kb_refusal_text(expected));
        exit(1);
    }
}

/* Times several ways in turns, the long ones in the first turn only. */
static inline void in_turns(struct timing *ways, int count, void (*once)(struct bench *, int), struct bench *b)
{
    for (int way = 0; way < count; way++)
        ways[way].turns = 0;
    for (int turn = 0; turn < TURNS; turn++)
        for (int way = 0; way < count; way++)
            if (turn == 0 || ways[way].times[0] <= LONG)
                TIME(ways[way], once(b, way))
}

/* A cell: nanoseconds for each tile, pixel or slot, and the ratio to straightforward C. */
static inline void cell(const struct timing *ours, const struct timing *straight, size_t units)
{
    printf("| %.2f ×%.2f ", least(ours) / (double)(units ? units : 1), ratio(ours, straight));
}

/* A cell: what one call takes more than another that is a part of it, and the ratio of this to straightforward C's. */
static inline void cell_less(const struct timing *ours, const struct timing *our_part,
                             const struct timing *straight, const struct timing *straight_part, size_t units)
{
    struct timing our_rest = less(ours, our_part), straight_rest = less(straight, straight_part);
    double rest = least(ours) - least(our_part);
    printf("| %.2f ×%.2f ", rest / (double)(units ? units : 1), ratio(&our_rest, &straight_rest));
}

typedef kb_fresh_answer fresh_call(uint32_t, uint32_t, uint32_t *, size_t);
typedef kb_feed_answer feed_call(uint32_t, uint32_t, uint32_t, size_t, uint32_t *, size_t, const uint8_t *, size_t);

/* A scan in pieces of a length with m slots; returns the tile count. */
size_t scan(struct bench *b, fresh_call *fresh, feed_call *feed, uint32_t kind, size_t m, size_t piece);

/* A whole scan by document 001's algorithm. */
void linked_scan(struct bench *b);

/* The scan by rows of the same bed, half done. */
void halve(struct bench *b);

/* Another way has to give the bed's list. */
void same(struct bench *b, const uint32_t *list, size_t tiles, const char *what);

/* One row of the tables of feeds, of the opening checks, of the other calls, and of files compared. Every call but the
   fresh scan and the reader checks the list first. */
void feeds_by_rows(struct bench *b);
void feeds_in_morton_order(struct bench *b);
void openings(struct bench *b);
void calls(struct bench *b);
void same_maps(struct bench *b);

/* The tables of refused lists and of short ones. */
void refused_lists(struct bench *b, uint32_t order);
void short_lists(struct bench *b, uint32_t order);

/* The table of lookups. */
void lookups(uint32_t lowest, uint32_t highest);

/* The tables of positions in mils and of loads, of the highest order there is. */
void mils(void);
void tables_of_rights(void);

#endif
