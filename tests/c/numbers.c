/* Calls on a bed's numbers, limits and texts. */
#include "test.h"

#include <string.h>

void test_numbers(void)
{
    for (uint32_t order = 0; order <= KB_HIGHEST_ORDER; order++) {
        kb_extent_answer extent = kb_extent(order);
        CHECK(extent.number == KB_ACCEPTED && extent.side == 1u << order && extent.pixels == 1u << 2 * order);
        CHECK(kb_morton(order, extent.side, 0).number == KB_POINT_OUTSIDE);
        CHECK(kb_morton(order, 0, extent.side).number == KB_POINT_OUTSIDE);
        CHECK(kb_point(order, extent.pixels).number == KB_BLOCK_INVALID);
        CHECK(kb_block(order, 0, 0, order + 1).number == KB_BLOCK_INVALID);
        CHECK(kb_block(order, extent.side - 1, extent.side - 1, order).corner == 0);
    }
    CHECK(kb_extent(11).number == KB_ORDER_TOO_LARGE && kb_extent(11).pixels == 0);
    CHECK(kb_morton(11, 0, 0).number == KB_ORDER_TOO_LARGE);
    CHECK(kb_block(11, 0, 0, 0).number == KB_ORDER_TOO_LARGE);
    CHECK(kb_point(11, 0).number == KB_ORDER_TOO_LARGE);

    CHECK(kb_morton(2, 2, 1).morton == 6 && kb_morton(3, 5, 0).morton == 17);
    CHECK(kb_morton(10, 1024, 0).number == KB_POINT_OUTSIDE && kb_morton(10, UINT32_MAX, 0).number == KB_POINT_OUTSIDE);
    CHECK(kb_block(10, 1024, 0, 3).number == KB_POINT_OUTSIDE && kb_block(10, 0, 1024, 3).number == KB_POINT_OUTSIDE);
    CHECK(kb_block(10, UINT32_MAX, 0, 3).number == KB_POINT_OUTSIDE);
    kb_block_answer block = kb_block(3, 5, 2, 1);
    CHECK(block.number == KB_ACCEPTED && block.corner == 24 && block.size == 1);

    for (uint32_t morton = 0; morton < 64; morton++) {
        kb_point_answer at = kb_point(3, morton);
        CHECK(at.number == KB_ACCEPTED && kb_morton(3, at.column, at.row).morton == morton);
    }

    CHECK(kb_tile_corner(7177) == 7 && kb_tile_size(7177) == 0 && kb_tile_account(7177) == 9);
    CHECK(kb_tile_corner(12361) == 12 && kb_tile_size(12361) == 1 && kb_tile_account(12361) == 9);
    CHECK(kb_tile_corner(UINT32_MAX) == 4194303 && kb_tile_size(UINT32_MAX) == 15);
    CHECK(kb_tile_account(UINT32_MAX) == 63);
}

/* Room for a file is a constant. */
static uint8_t room[KB_FILE_MOST(4)], most_room[KB_FILE_MOST(SIZE_MAX)];

void test_limits(void)
{
    const size_t whole = 6 + 4 * 1048576 + 5 * 63;
    int none = -1;
    room[41] = most_room[whole - 1] = 0;
    CHECK(KB_FILE_MOST(0) == 6 && KB_FILE_MOST(1) == 15 && sizeof room == 42 && sizeof most_room == whole);
    CHECK(KB_FILE_MOST(62) == 564 && KB_FILE_MOST(63) == 573 && KB_FILE_MOST(64) == 577);
    CHECK(KB_FILE_MOST(KB_MOST_SLOTS) == whole && KB_FILE_MOST(KB_MOST_SLOTS - 1) == whole - 4);
    CHECK(KB_FILE_MOST(KB_MOST_SLOTS + 1) == whole && KB_FILE_MOST(SIZE_MAX) == whole && KB_FILE_MOST(none) == whole);
    CHECK(KB_FILE_MOST(SIZE_MAX / 4) == whole && KB_FILE_MOST(SIZE_MAX / 4 + 1) == whole);
    CHECK(KB_MOST_SLOTS == kb_extent(KB_HIGHEST_ORDER).pixels);
}

void test_texts(void)
{
    static const uint32_t numbers[] = {0, 1, 2, 11, 12, 13, 14, 15, 16, 21, 22, 23, 24, 25, 26,
                                       31, 32, 33, 34, 41, 42, 43, 51, 52, 53, 54, 55, 56};
    const char *unknown = "a number that this version does not know";
    size_t next = 0;
    for (uint32_t number = 0; number <= 70; number++) {
        int known = next < sizeof numbers / sizeof *numbers && numbers[next] == number;
        next += (size_t)known;
        CHECK((strcmp(kb_refusal_text(number), unknown) != 0) == known);
        for (uint32_t other = 0; known && other < number; other++)
            CHECK(strcmp(kb_refusal_text(number), kb_refusal_text(other)) != 0);
    }
    CHECK(next == sizeof numbers / sizeof *numbers);
    CHECK(strcmp(kb_refusal_text(UINT32_MAX), unknown) == 0);
    CHECK(strcmp(kb_refusal_text(0), "accepted") == 0);
    CHECK(strcmp(kb_refusal_text(24), "the account is above 63") == 0);
    CHECK(strcmp(kb_refusal_text(26), "the bytes lent are fewer than the file or the text takes") == 0);
    CHECK(strcmp(kb_refusal_text(51), "the two maps have different orders") == 0);
    CHECK(strcmp(kb_refusal_text(52), "the pixel, the block or the bed is not wholly scanned yet") == 0);
    CHECK(strcmp(kb_refusal_text(53), "the text is no position in mils, or the position is off the bed") == 0);
    CHECK(strcmp(kb_refusal_text(54), "the accounts in the file's roster do not rise from entry to entry") == 0);
    CHECK(strcmp(kb_refusal_text(55), "the table of rights has a wrong count, a wrong length or a byte above 1") == 0);
    CHECK(strcmp(kb_refusal_text(56), "a row of the table of rights lacks a yes that it must have") == 0);
}
