/* The map file, written and read. */
#include "straight.h"

#include <string.h>

static void put(uint8_t *at, uint32_t word)
{
    at[0] = (uint8_t)(word >> 24);
    at[1] = (uint8_t)(word >> 16);
    at[2] = (uint8_t)(word >> 8);
    at[3] = (uint8_t)word;
}

static uint32_t get(const uint8_t *at) { return (uint32_t)at[0] << 24 | (uint32_t)at[1] << 16 | (uint32_t)at[2] << 8 | at[3]; }

kb_write_answer straight_write(uint32_t kind, uint32_t order, uint32_t pixels, size_t tiles,
                               const uint32_t *slots, size_t slots_length, uint8_t *file, size_t file_length)
{
    uint32_t totals[KB_HIGHEST_ACCOUNT + 1] = {0};
    size_t accounts = 0;
    kb_write_answer answer = {straight_opening(kind, order, pixels, tiles, slots, slots_length), 0};
    if (!answer.number && pixels < area(order))
        answer.number = KB_UNSCANNED;
    if (answer.number)
        return answer;
    for (size_t i = 0; i < tiles; i++)
        totals[account_of(slots[i])] += area(size_of(slots[i]));
    for (int a = 1; a <= KB_HIGHEST_ACCOUNT; a++)
        accounts += totals[a] > 0;
    if (file_length < 6 + 4 * tiles + 5 * accounts) {
        answer.number = KB_BYTES_TOO_FEW;
        return answer;
    }
    answer.length = 6 + 4 * tiles + 5 * accounts;
    file[0] = (uint8_t)order;
    put(file + 1, (uint32_t)tiles);
    file += 5;
    for (size_t i = 0; i < tiles; i++, file += 4)
        put(file, slots[i]);
    *file++ = (uint8_t)accounts;
    for (int a = 1; a <= KB_HIGHEST_ACCOUNT; a++)
        if (totals[a]) {
            *file = (uint8_t)a;
            put(file + 1, totals[a]);
            file += 5;
        }
    return answer;
}

/* The roster, from its count on, against the totals of the tiles: one pass over the entries, by rising account. */
static uint32_t roster(const uint8_t *at, size_t left, uint32_t *totals)
{
    if (left < 1)
        return KB_FILE_CUT_SHORT;
    const uint8_t *entry = at + 1;
    int ahead = -1, wrong = 0;
    left--;
    for (int i = 0; i < at[0]; i++, entry += 5, left -= 5) {
        if (left < 5)
            return KB_FILE_CUT_SHORT;
        if (entry[0] <= ahead)
            return KB_ROSTER_UNSORTED;
        ahead = entry[0];
        if (entry[0] > KB_HIGHEST_ACCOUNT || totals[entry[0]] == 0 || totals[entry[0]] != get(entry + 1))
            wrong = 1;
        else
            totals[entry[0]] = 0;
    }
    if (left > 0)
        return KB_TRAILING_BYTES;
    for (int a = 1; a <= KB_HIGHEST_ACCOUNT; a++)
        wrong |= totals[a] > 0;
    return wrong ? KB_ROSTER_WRONG : 0;
}

kb_read_answer straight_read(const uint8_t *file, size_t file_length, uint32_t *slots, size_t slots_length)
{
    uint32_t totals[KB_HIGHEST_ACCOUNT + 1] = {0};
    uint32_t last[4] = {0}, end = 0;
    kb_read_answer answer = {KB_FILE_CUT_SHORT, 0, 0};
    if (file_length < 1)
        return answer;
    if (file[0] > KB_HIGHEST_ORDER) {
        answer.number = KB_ORDER_TOO_LARGE;
        return answer;
    }
    if (file_length < 5)
        return answer;
    size_t tiles = get(file + 1);
    if (tiles > slots_length) {
        answer.number = KB_SLOTS_EXCEEDED;
        return answer;
    }
    for (size_t i = 0; i < tiles; i++) {
        if ((file_length - 5) / 4 <= i)
            return answer;
        last[0] = last[1], last[1] = last[2], last[2] = last[3], last[3] = get(file + 5 + 4 * i);
        uint32_t number = straight_word(file[0], last, 3, end);
        if (number) {
            answer.number = number;
            return answer;
        }
        end = end_of(last[3]);
        totals[account_of(last[3])] += area(size_of(last[3]));
    }
    answer.number = roster(file + 5 + 4 * tiles, file_length - 5 - 4 * tiles, totals);
    if (answer.number)
        return answer;
    answer.order = file[0];
    answer.tiles = tiles;
    for (size_t i = 0; i < tiles; i++)
        slots[i] = get(file + 5 + 4 * i);
    if (slots_length > tiles)
        memset(slots + tiles, 0, (slots_length - tiles) * sizeof *slots);
    return answer;
}
