/* Building from the whole raster and from a stack; the beds measured. */
#include "builds.h"

#include "straight.h"

#include <string.h>

#define MIXED 64

/* Appends the tiles of a block to a list and returns its account, or MIXED. */
static int build(uint32_t order, uint32_t corner, uint32_t size, const uint8_t *at, uint32_t *list, size_t *count)
{
    if (size == 0) {
        if (*at)
            list[(*count)++] = word_of(corner, 0, *at);
        return *at;
    }
    size_t before = *count, half = (size_t)1 << (size - 1), down = half << order;
    uint32_t quarter = area(size - 1);
    int a = build(order, corner, size - 1, at, list, count);
    int b = build(order, corner + quarter, size - 1, at + half, list, count);
    int c = build(order, corner + 2 * quarter, size - 1, at + down, list, count);
    int d = build(order, corner + 3 * quarter, size - 1, at + down + half, list, count);
    if (a == MIXED || a != b || a != c || a != d)
        return MIXED;
    *count = before;
    if (a)
        list[(*count)++] = word_of(corner, size, (uint32_t)a);
    return a;
}

size_t bottom_up(uint32_t order, const uint8_t *raster, uint32_t *list)
{
    size_t count = 0;
    build(order, 0, order, raster, list, &count);
    return count;
}

size_t morton_stack(const uint8_t *accounts, size_t pixels, uint32_t *list)
{
    size_t top = 0;
    for (uint32_t z = 0; z < pixels; z++) {
        if (!accounts[z])
            continue;
        uint32_t word = word_of(z, 0, accounts[z]), step = 1u << 10;
        for (uint32_t left = z; (left & 3) == 3 && top >= 3; left >>= 2, step <<= 2) {
            if (list[top - 1] != word - step || list[top - 2] != word - 2 * step || list[top - 3] != word - 3 * step)
                break;
            top -= 3;
            word = word - 3 * step + (1u << 6);
        }
        list[top++] = word;
    }
    return top;
}

const char *const bed_names[BED_KINDS] = {"boards", "noise", "checkerboard", "uniform"};

uint32_t random_below(uint64_t *state, uint32_t bound)
{
    *state = *state * 6364136223846793005u + 1442695040888963407u;
    return (uint32_t)((*state >> 33) % bound);
}

/* Puts rectangles on a bed, each up to a share of the bed wide and high. */
static void put_boards(uint64_t *state, int boards, uint32_t share, uint32_t order, uint8_t *raster)
{
    uint32_t side = 1u << order;
    for (int board = 0; board < boards; board++) {
        uint32_t width = 1 + random_below(state, side / share), height = 1 + random_below(state, side / share);
        uint32_t column = random_below(state, side - width), row = random_below(state, side - height);
        uint8_t account = (uint8_t)(1 + random_below(state, 63));
        for (uint32_t y = row; y < row + height; y++)
            memset(raster + ((size_t)y << order) + column, account, width);
    }
}

void make_bed(int kind, uint32_t order, uint8_t *raster)
{
    uint64_t state = 20 + order;
    uint32_t side = 1u << order;
    for (uint32_t row = 0; row < side; row++)
        for (uint32_t column = 0; column < side; column++) {
            uint8_t *at = raster + ((size_t)row << order) + column;
            *at = kind == 1 ? (uint8_t)random_below(&state, 64) : kind == 2 ? (row + column) % 2 * 9 : kind == 3 ? 63 : 0;
        }
    if (kind == 0)
        put_boards(&state, 24, 4, order, raster);
}

void make_noise(uint32_t accounts, uint32_t order, uint8_t *raster)
{
    uint64_t state = 220 + order;
    for (size_t i = 0; i < area(order); i++)
        raster[i] = (uint8_t)(1 + random_below(&state, accounts));
}

void make_zones(uint32_t order, uint8_t *raster)
{
    uint64_t state = 120 + order;
    memset(raster, 0, area(order));
    put_boards(&state, 8, 2, order, raster);
}
