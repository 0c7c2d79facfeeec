/* Feeds: where one stops, and that it does not matter how many pixels go at once. */
#include "test.h"

#include <string.h>

void test_feed(void)
{
    uint32_t slots[2];
    const uint8_t bad[3] = {7, 64, 7}, good[3] = {7, 7, 7}, scattered[4] = {1, 2, 3, 4};
    kb_scan scan = NO_SCAN;
    CHECK(kb_scan_fresh(&scan, KB_ROWS, 1, slots, 2) == KB_ACCEPTED);
    kb_feed_answer fed = kb_scan_feed(&scan, bad, 3);
    CHECK(fed.number == KB_ACCOUNT_TOO_LARGE && fed.taken == 1 && scan.pixels == 1 && scan.tiles == 1);
    fed = kb_scan_feed(&scan, good, 1);
    CHECK(fed.number == KB_ACCEPTED && scan.pixels == 2 && scan.tiles == 2);
    fed = kb_scan_feed(&scan, good, 1);
    CHECK(fed.number == KB_SLOTS_EXCEEDED && fed.taken == 0 && scan.pixels == 2 && scan.tiles == 2);

    CHECK(kb_scan_fresh(&scan, KB_ROWS, 1, slots, 2) == KB_ACCEPTED);
    fed = kb_scan_feed(&scan, scattered, 4);
    CHECK(fed.number == KB_SLOTS_EXCEEDED && fed.taken == 2 && scan.pixels == 2 && scan.tiles == 2);
    kb_scan before = scan;
    slots[0] = UINT32_MAX;
    fed = kb_scan_feed(&scan, good, 1);
    CHECK(fed.number == KB_HIGH_BITS_SET && fed.taken == 0 && same(&scan, &before));
    CHECK(kb_scan_check(&scan) == KB_HIGH_BITS_SET);
}

/* Fed at once, a bed of order 3 comes to what it comes to pixel by pixel: answer, record and slots. */
static void feeds_alike(uint32_t kind, const uint8_t *accounts, size_t length, size_t slots_length)
{
    uint32_t slots[64], others[64], number = KB_ACCEPTED;
    size_t taken = 0;
    kb_scan scan = NO_SCAN, other = NO_SCAN;
    CHECK(kb_scan_fresh(&scan, kind, 3, slots, slots_length) == KB_ACCEPTED);
    CHECK(kb_scan_fresh(&other, kind, 3, others, slots_length) == KB_ACCEPTED);
    kb_feed_answer fed = kb_scan_feed(&scan, accounts, length);
    while (taken < length && number == KB_ACCEPTED) {
        kb_feed_answer one = kb_scan_feed(&other, accounts + taken, 1);
        number = one.number;
        taken += one.taken;
    }
    CHECK(fed.number == number && fed.taken == taken);
    CHECK(scan.kind == kind && scan.order == 3 && scan.pixels == taken && scan.tiles == other.tiles);
    CHECK(memcmp(slots, others, slots_length * sizeof *slots) == 0);
}

/* By rows blocks of 16 pixels, of 4 and of 1, and free ground: with every number of slots and pixels past the end of
   the bed, and with a byte at each place that is no account. */
void test_feed_many(void)
{
    uint8_t accounts[66] = {0};
    for (uint8_t pixel = 0; pixel < 64; pixel++) {
        uint8_t column = pixel % 8, row = pixel / 8, quad = (uint8_t)(column / 2 + row / 2);
        uint8_t east = row < 4 ? (uint8_t)(1 + quad % 2) : (uint8_t)((column + row) % 2 * 9);
        accounts[pixel] = column < 4 ? (uint8_t)(row < 4 ? 7 : quad % 3) : east;
    }
    for (uint32_t kind = KB_ROWS; kind <= KB_MORTON; kind++) {
        for (size_t slots = 0; slots <= 64; slots++)
            feeds_alike(kind, accounts, 66, slots);
        for (size_t place = 0; place < 64; place++) {
            uint8_t account = accounts[place];
            accounts[place] = place % 2 ? 64 : 255;
            feeds_alike(kind, accounts, 64, 64);
            feeds_alike(kind, accounts, 64, 16);
            accounts[place] = account;
        }
    }
}

/* By rows a uniform bed of order 3 has 15 tiles once its last row has begun. With a slot less it stops there. */
void test_feed_uniform(void)
{
    uint32_t slots[15];
    uint8_t accounts[65];
    kb_scan scan = NO_SCAN;
    memset(accounts, 63, sizeof accounts);
    CHECK(kb_scan_fresh(&scan, KB_ROWS, 3, slots, 15) == KB_ACCEPTED);
    kb_feed_answer fed = kb_scan_feed(&scan, accounts, 65);
    CHECK(fed.number == KB_SCAN_FULL && fed.taken == 64 && scan.pixels == 64);
    CHECK(scan.tiles == 1 && slots[0] == 3 * 64 + 63 && slots[1] == 0 && slots[14] == 0);
    CHECK(kb_scan_fresh(&scan, KB_ROWS, 3, slots, 14) == KB_ACCEPTED);
    fed = kb_scan_feed(&scan, accounts, 65);
    CHECK(fed.number == KB_SLOTS_EXCEEDED && fed.taken == 56 && scan.pixels == 56 && scan.tiles == 14);
    accounts[63] = 64;
    CHECK(kb_scan_fresh(&scan, KB_ROWS, 3, slots, 15) == KB_ACCEPTED);
    fed = kb_scan_feed(&scan, accounts, 65);
    CHECK(fed.number == KB_ACCOUNT_TOO_LARGE && fed.taken == 63 && scan.tiles == 9);
}
