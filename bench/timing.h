/* How long statements take, and ways compared in turns. */
#ifndef TIMING_H
#define TIMING_H

#include <stdlib.h>
#include <time.h>

#define BATCH 5e6 /* nanoseconds that a batch takes at least */
#define LONG 2.5e8 /* what takes longer is timed once */
#define TURNS 7

static inline double now(void)
{
    struct timespec t;
    clock_gettime(CLOCK_PROCESS_CPUTIME_ID, &t);
    return (double)t.tv_sec * 1e9 + (double)t.tv_nsec;
}

/* The times of one way, turn by turn, and how often a batch runs it. */
struct timing {
    int turns;
    long runs;
    double times[TURNS];
};

/* Adds a turn to the times of a way: the nanoseconds of processor time that the statements take, the mean of a batch.
   A batch begins with as many runs as the one before it had, and has twice as many until it takes long enough. */
#define TIME(way, ...)                                                     \
    for ((way).runs = (way).turns ? (way).runs : 1;; (way).runs *= 2) {    \
        double begin = now();                                              \
        for (long run = 0; run < (way).runs; run++) {                      \
            __VA_ARGS__;                                                   \
        }                                                                  \
        double spent = now() - begin;                                      \
        if (spent >= BATCH) {                                              \
            (way).times[(way).turns++] = spent / (double)(way).runs;       \
            break;                                                         \
        }                                                                  \
    }

static inline double least(const struct timing *way)
{
    double best = way->times[0];
    for (int turn = 1; turn < way->turns; turn++)
        best = way->times[turn] < best ? way->times[turn] : best;
    return best;
}

static inline int by_size(const void *a, const void *b)
{
    double x = *(const double *)a, y = *(const double *)b;
    return (x > y) - (x < y);
}

/* One way's time divided by another's: the median of the quotients turn by turn, since the machine is faster at some
   times than at others. */
static inline double ratio(const struct timing *way, const struct timing *other)
{
    double quotients[TURNS];
    int turns = way->turns < other->turns ? way->turns : other->turns;
    for (int turn = 0; turn < turns; turn++)
        quotients[turn] = way->times[turn] / other->times[turn];
    qsort(quotients, (size_t)turns, sizeof *quotients, by_size);
    return quotients[turns / 2];
}

/* One way's time less another's, turn by turn. */
static inline struct timing less(const struct timing *way, const struct timing *other)
{
    struct timing left = *way;
    left.turns = way->turns < other->turns ? way->turns : other->turns;
    for (int turn = 0; turn < left.turns; turn++)
        left.times[turn] -= other->times[turn];
    return left;
}

/* Times two statements in turns; in a single turn where it takes long. */
#define BOTH(ours, our_call, other, other_call)                    \
    do {                                                           \
        (ours).turns = (other).turns = 0;                          \
        for (int turn = 0; turn < TURNS; turn++) {                 \
            TIME(ours, our_call)                                   \
            TIME(other, other_call)                                \
            if ((ours).times[turn] > LONG)                         \
                break;                                             \
        }                                                          \
    } while (0)

#endif
