/* A third map from two: both lists are walked side by side, once to count its tiles and once to write them. */
#include "straight.h"

#include <string.h>

/* The largest blocks of the pixels from `from` to `to`, as tiles of an account; with no list they are only counted. */
static size_t cut(uint32_t from, uint32_t to, uint8_t account, uint32_t *list)
{
    size_t count = 0;
    while (from < to) {
        uint32_t size = 0;
        while (!(from & (area(size + 1) - 1)) && area(size + 1) <= to - from)
            size++;
        if (list)
            list[count] = word_of(from, size, account);
        count++;
        from += area(size);
    }
    return count;
}

/* The end of the run from `from` on, `to` at most, that the second map's tiles hold, or that none of them does; *at is
   the first of them that ends past `from`. */
static uint32_t run_end(uint32_t from, uint32_t to, int held, size_t tiles, const uint32_t *slots, size_t *at)
{
    if (!held)
        return *at < tiles && corner_of(slots[*at]) < to ? corner_of(slots[*at]) : to;
    for (; *at < tiles && corner_of(slots[*at]) <= from; ++*at) {
        from = end_of(slots[*at]);
        if (from >= to)
            return to;
    }
    return from;
}

/* The tiles of the third map, counted or written to a list. A run goes on over the second map's tiles as long as they
   touch, so no two of its blocks are to be merged. */
static size_t combine(uint32_t choice, size_t tiles1, const uint32_t *slots1, size_t tiles2, const uint32_t *slots2,
                      uint32_t *list)
{
    size_t count = 0, at = 0;
    for (size_t i = 0; i < tiles1; i++) {
        uint32_t end = end_of(slots1[i]);
        for (uint32_t from = corner_of(slots1[i]); from < end;) {
            while (at < tiles2 && end_of(slots2[at]) <= from)
                at++;
            int held = at < tiles2 && corner_of(slots2[at]) <= from;
            uint32_t to = run_end(from, end, held, tiles2, slots2, &at);
            if (held == (choice == KB_INSIDE))
                count += cut(from, to, account_of(slots1[i]), list ? list + count : NULL);
            from = to;
        }
    }
    return count;
}

kb_combine_answer straight_combine(uint32_t choice,
                                   uint32_t order1, size_t tiles1, const uint32_t *slots1, size_t slots1_length,
                                   uint32_t order2, size_t tiles2, const uint32_t *slots2, size_t slots2_length,
                                   uint32_t *out, size_t out_length)
{
    kb_combine_answer answer = {straight_check(order1, tiles1, slots1, slots1_length), 0};
    if (!answer.number)
        answer.number = straight_check(order2, tiles2, slots2, slots2_length);
    if (!answer.number && order1 != order2)
        answer.number = KB_ORDERS_DIFFER;
    if (answer.number)
        return answer;
    size_t tiles = combine(choice, tiles1, slots1, tiles2, slots2, NULL);
    if (tiles > out_length) {
        answer.number = KB_SLOTS_EXCEEDED;
        return answer;
    }
    answer.tiles = combine(choice, tiles1, slots1, tiles2, slots2, out);
    if (out_length > tiles)
        memset(out + tiles, 0, (out_length - tiles) * sizeof *out);
    return answer;
}
