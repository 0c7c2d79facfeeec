/* The calls that read a map, and the claim with its preview. */
#include "straight.h"

#include <string.h>

/* The column in the even bits of a Morton number; of the number shifted by one, the row. */
uint32_t straight_side(uint32_t z)
{
    z &= 0x55555;
    z = (z | z >> 1) & 0x33333;
    z = (z | z >> 2) & 0x30f0f;
    z = (z | z >> 4) & 0x300ff;
    return (z | z >> 8) & 0x3ff;
}

static uint32_t spread(uint32_t x)
{
    x = (x | x << 8) & 0x300ff;
    x = (x | x << 4) & 0x30f0f;
    x = (x | x << 2) & 0x33333;
    return (x | x << 1) & 0x55555;
}

uint32_t straight_morton(uint32_t column, uint32_t row) { return spread(column) | spread(row) << 1; }

uint32_t straight_check(uint32_t order, size_t tiles, const uint32_t *slots, size_t slots_length)
{
    if (order > KB_HIGHEST_ORDER)
        return KB_ORDER_TOO_LARGE;
    if (tiles > slots_length)
        return KB_COUNT_ABOVE_SLOTS;
    uint32_t end = 0;
    for (size_t i = 0; i < tiles; i++) {
        uint32_t number = straight_word(order, slots, i, end);
        if (number)
            return number;
        end = end_of(slots[i]);
    }
    return 0;
}

/* The first tile that ends past z. */
static size_t find(size_t tiles, const uint32_t *slots, uint32_t z)
{
    size_t low = 0, high = tiles;
    while (low < high) {
        size_t middle = low + (high - low) / 2;
        if (end_of(slots[middle]) <= z)
            low = middle + 1;
        else
            high = middle;
    }
    return low;
}

uint32_t straight_decode(uint32_t order, size_t tiles, const uint32_t *slots, size_t slots_length,
                         uint8_t *raster, size_t raster_length)
{
    uint32_t number = straight_check(order, tiles, slots, slots_length);
    if (number)
        return number;
    if (raster_length != area(order))
        return KB_RASTER_LENGTH;
    memset(raster, 0, raster_length);
    for (size_t i = 0; i < tiles; i++) {
        uint32_t corner = corner_of(slots[i]), side = 1u << size_of(slots[i]);
        uint8_t *at = raster + ((size_t)straight_side(corner >> 1) << order) + straight_side(corner);
        for (uint32_t row = 0; row < side; row++, at += (size_t)1 << order)
            memset(at, account_of(slots[i]), side);
    }
    return 0;
}

kb_lookup_answer straight_lookup(uint32_t kind, uint32_t order, uint32_t pixels, size_t tiles,
                                 const uint32_t *slots, size_t slots_length, uint32_t column, uint32_t row)
{
    kb_lookup_answer answer = {straight_opening(kind, order, pixels, tiles, slots, slots_length), 0, 0, 0};
    if (answer.number)
        return answer;
    if (column >> order || row >> order) {
        answer.number = KB_POINT_OUTSIDE;
        return answer;
    }
    uint32_t z = straight_morton(column, row);
    if ((kind == KB_ROWS ? row << order | column : z) >= pixels) {
        answer.number = KB_UNSCANNED;
        return answer;
    }
    size_t at = find(tiles, slots, z);
    if (at < tiles && corner_of(slots[at]) <= z) {
        answer.account = account_of(slots[at]);
        answer.corner = corner_of(slots[at]);
        answer.size = size_of(slots[at]);
        return answer;
    }
    uint32_t from = at > 0 ? end_of(slots[at - 1]) : 0, upto = at < tiles ? corner_of(slots[at]) : area(order);
    answer.corner = z;
    for (uint32_t size = 1; size <= order; size++) {
        uint32_t corner = z & ~(area(size) - 1), end = corner + area(size), low = (1u << size) - 1;
        uint32_t last = kind == KB_ROWS ? (row | low) << order | column | low : end - 1;
        if (corner < from || end > upto || last >= pixels)
            break;
        answer.corner = corner;
        answer.size = size;
    }
    return answer;
}

static int block_invalid(uint32_t order, uint32_t corner, uint32_t size)
{
    return size > order || corner >= area(order) || corner & (area(size) - 1);
}

kb_part_answer straight_part(uint32_t order, size_t tiles, const uint32_t *slots, size_t slots_length,
                             uint32_t corner, uint32_t size)
{
    kb_part_answer answer = {straight_check(order, tiles, slots, slots_length), 0, 0};
    if (answer.number)
        return answer;
    if (block_invalid(order, corner, size)) {
        answer.number = KB_BLOCK_INVALID;
        return answer;
    }
    size_t at = find(tiles, slots, corner);
    if (at < tiles && corner_of(slots[at]) <= corner && size_of(slots[at]) > size) {
        answer.position = at + (corner_of(slots[at]) < corner);
        return answer;
    }
    answer.position = at;
    answer.length = find(tiles, slots, corner + area(size)) - at;
    return answer;
}

/* The pieces of a tile around and with a block inside it that gets another account. */
static void split(uint32_t tile, uint32_t corner, uint32_t size, uint8_t account, uint32_t *pieces)
{
    size_t count = 0;
    uint32_t start = corner_of(tile);
    for (uint32_t k = size_of(tile); k-- > size;) {
        uint32_t quarter = corner >> 2 * k & 3;
        for (uint32_t q = 0; q < quarter; q++)
            pieces[count++] = word_of(start + q * area(k), k, account_of(tile));
        start += quarter * area(k);
    }
    if (account)
        pieces[count++] = word_of(corner, size, account);
    for (uint32_t k = size; k < size_of(tile); k++) {
        uint32_t quarter = corner >> 2 * k & 3;
        uint32_t parent = corner & ~(area(k + 1) - 1);
        for (uint32_t q = quarter + 1; q < 4; q++)
            pieces[count++] = word_of(parent + q * area(k), k, account_of(tile));
    }
}

/* Whether the three siblings of a block stand next to the run [low, high) whose place it takes. */
static int siblings(size_t tiles, const uint32_t *slots, size_t low, size_t high, uint32_t block)
{
    uint32_t corner = corner_of(block), size = size_of(block), step = area(size) << 10;
    uint32_t place = corner >> 2 * size & 3;
    if (low < place || tiles - high < 3 - place)
        return 0;
    for (uint32_t q = 1; q <= place; q++)
        if (slots[low - q] != block - q * step)
            return 0;
    for (uint32_t q = 1; q <= 3 - place; q++)
        if (slots[high + q - 1] != block + q * step)
            return 0;
    return 1;
}

/* What a claim changes: the tiles from low up to high give way to `count` tiles. They are the word `tile`, or what is
   left of it around the block and the block itself, if it is cut. */
struct plan {
    size_t low, high, count;
    uint32_t tile;
    int cut;
};

static struct plan find_change(uint32_t order, size_t tiles, const uint32_t *slots, uint32_t corner, uint32_t size,
                               uint8_t account)
{
    struct plan plan = {find(tiles, slots, corner), 0, 1, 0, 0};
    if (plan.low < tiles && corner_of(slots[plan.low]) <= corner && size_of(slots[plan.low]) > size) {
        plan.tile = slots[plan.low];
        plan.high = plan.low + 1;
        if (account_of(plan.tile) != account) {
            plan.cut = 1;
            plan.count = 3 * (size_of(plan.tile) - size) + (account != 0);
        }
        return plan;
    }
    plan.high = find(tiles, slots, corner + area(size));
    plan.count = account != 0;
    plan.tile = word_of(corner, size, account);
    while (account && size_of(plan.tile) < order && siblings(tiles, slots, plan.low, plan.high, plan.tile)) {
        uint32_t k = size_of(plan.tile), place = corner_of(plan.tile) >> 2 * k & 3;
        plan.low -= place;
        plan.high += 3 - place;
        plan.tile = word_of(corner_of(plan.tile) - place * area(k), k + 1, account);
    }
    return plan;
}

/* The checks of a claim and its plan: what the claim answers, with nothing stored. */
static kb_claim_answer plan_claim(uint32_t kind, uint32_t order, uint32_t pixels, size_t tiles,
                                  const uint32_t *slots, size_t slots_length, uint32_t corner, uint32_t size,
                                  uint8_t account, struct plan *plan)
{
    kb_claim_answer answer = {straight_opening(kind, order, pixels, tiles, slots, slots_length), 0};
    if (answer.number)
        return answer;
    if (block_invalid(order, corner, size))
        answer.number = KB_BLOCK_INVALID;
    else if (straight_place(kind, order, corner + area(size) - 1) >= pixels)
        answer.number = KB_UNSCANNED;
    else if (account > KB_HIGHEST_ACCOUNT)
        answer.number = KB_ACCOUNT_TOO_LARGE;
    if (answer.number)
        return answer;
    *plan = find_change(order, tiles, slots, corner, size, account);
    size_t after = tiles - (plan->high - plan->low) + plan->count;
    if (after > slots_length)
        answer.number = KB_SLOTS_EXCEEDED;
    else
        answer.tiles = after;
    return answer;
}

kb_preview_answer straight_preview(uint32_t kind, uint32_t order, uint32_t pixels, size_t tiles,
                                   const uint32_t *slots, size_t slots_length, uint32_t corner, uint32_t size,
                                   uint8_t account)
{
    struct plan plan;
    kb_claim_answer planned = plan_claim(kind, order, pixels, tiles, slots, slots_length, corner, size, account, &plan);
    kb_preview_answer answer = {planned.number, planned.tiles};
    return answer;
}

kb_claim_answer straight_claim(uint32_t kind, uint32_t order, uint32_t pixels, size_t tiles,
                               uint32_t *slots, size_t slots_length, uint32_t corner, uint32_t size, uint8_t account)
{
    struct plan plan;
    kb_claim_answer answer = plan_claim(kind, order, pixels, tiles, slots, slots_length, corner, size, account, &plan);
    if (answer.number)
        return answer;
    memmove(slots + plan.low + plan.count, slots + plan.high, (tiles - plan.high) * sizeof *slots);
    if (plan.cut)
        split(plan.tile, corner, size, account, slots + plan.low);
    else if (plan.count)
        slots[plan.low] = plan.tile;
    if (slots_length > answer.tiles)
        memset(slots + answer.tiles, 0, (slots_length - answer.tiles) * sizeof *slots);
    return answer;
}
