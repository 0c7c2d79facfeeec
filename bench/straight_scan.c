/* Fresh scan and feed: the tiles before the next pixel at the front of the slots, the others at their far end. */
#include "straight.h"

#include <string.h>

kb_fresh_answer straight_fresh(uint32_t kind, uint32_t order, uint32_t *slots, size_t slots_length)
{
    kb_fresh_answer answer = {0, kind == KB_ROWS ? KB_ROWS : KB_MORTON, 0, 0, 0};
    if (order > KB_HIGHEST_ORDER) {
        answer.number = KB_ORDER_TOO_LARGE;
        return answer;
    }
    answer.order = order;
    if (slots_length)
        memset(slots, 0, slots_length * sizeof *slots);
    return answer;
}

uint32_t straight_place(uint32_t kind, uint32_t order, uint32_t morton)
{
    return kind == KB_ROWS ? straight_side(morton >> 1) << order | straight_side(morton) : morton;
}

/* A tile's last pixel is its south-eastern one, in either scan. A finished scan has no pixel that a tile could cover
   unscanned. */
uint32_t straight_opening(uint32_t kind, uint32_t order, uint32_t pixels, size_t tiles,
                          const uint32_t *slots, size_t slots_length)
{
    uint32_t number = straight_check(order, tiles, slots, slots_length);
    if (number)
        return number;
    if (pixels > area(order))
        return KB_SCANNED_TOO_LARGE;
    if (pixels == area(order))
        return 0;
    for (size_t i = 0; i < tiles; i++)
        if (straight_place(kind, order, end_of(slots[i]) - 1) >= pixels)
            return KB_TILE_UNSCANNED;
    return 0;
}

kb_feed_answer straight_feed(uint32_t kind, uint32_t order, uint32_t pixels, size_t tiles, uint32_t *slots, size_t slots_length,
                             const uint8_t *accounts, size_t accounts_length)
{
    kind = kind == KB_ROWS ? KB_ROWS : KB_MORTON;
    uint32_t number = straight_opening(kind, order, pixels, tiles, slots, slots_length);
    kb_feed_answer answer = {number, 0, kind, order, pixels, tiles};
    if (number)
        return answer;
    size_t front = tiles, back = slots_length, i = 0;
    for (; i < accounts_length; i++, pixels++) {
        if (pixels == area(order)) {
            answer.number = KB_SCAN_FULL;
            break;
        }
        uint8_t account = accounts[i];
        if (account > KB_HIGHEST_ACCOUNT) {
            answer.number = KB_ACCOUNT_TOO_LARGE;
            break;
        }
        if (account == 0)
            continue;
        uint32_t z = kind == KB_ROWS ? straight_morton(pixels & ((1u << order) - 1), pixels >> order) : pixels;
        while (front > 0 && corner_of(slots[front - 1]) > z)
            slots[--back] = slots[--front];
        while (back < slots_length && corner_of(slots[back]) < z)
            slots[front++] = slots[back++];
        size_t at = front;
        uint32_t word = word_of(z, 0, account);
        for (uint32_t k = 0; k < order && (z >> 2 * k & 3) == 3 && at >= 3; k++) {
            uint32_t step = area(k) << 10;
            if (slots[at - 1] != word - step || slots[at - 2] != word - 2 * step || slots[at - 3] != word - 3 * step)
                break;
            at -= 3;
            word = word - 3 * step + (1u << 6);
        }
        if (at == back) {
            answer.number = KB_SLOTS_EXCEEDED;
            break;
        }
        slots[at] = word;
        front = at + 1;
    }
    answer.taken = i;
    answer.pixels = pixels;
    answer.tiles = front + (slots_length - back);
    if (slots_length) {
        memmove(slots + front, slots + back, (slots_length - back) * sizeof *slots);
        memset(slots + answer.tiles, 0, (slots_length - answer.tiles) * sizeof *slots);
    }
    return answer;
}
