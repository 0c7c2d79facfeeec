/* A third map from two: its list, the order of the checks, the storage left, and the scan that it becomes. */
#include "test.h"

#include <string.h>

/* Bed M of the rules, and zones of account 3 on its north-west and south-east quarters. */
static const uint32_t bed[4] = {69, 7177, 8201, 12361}, zones[2] = {67, 12355};
static const uint32_t inside[2] = {69, 12361}, outside[2] = {7177, 8201};

/* One tile on the whole bed of order 2, quarters of four accounts, and a pixel. */
static const uint32_t whole[1] = {133}, quarters[4] = {65, 4162, 8259, 12356}, pixel[1] = {3};

#define LENT 6
#define GARBAGE 0xdeadbeef

/* The arguments of a call, and its slots. */
struct call {
    uint32_t choice, order1, order2;
    size_t tiles1, tiles2, out_length;
    uint32_t slots1[LENT], slots2[LENT], out[LENT];
};

/* A list with garbage behind it, which no call may take for tiles. */
static void lend(uint32_t *slots, const uint32_t *list, size_t tiles)
{
    for (size_t i = 0; i < LENT; i++)
        slots[i] = i < tiles ? list[i] : GARBAGE;
}

/* A call on two maps of order 2, with every slot of `out` and garbage in it. */
static struct call call_on(uint32_t choice, const uint32_t *first, size_t tiles1, const uint32_t *second, size_t tiles2)
{
    struct call call = {choice, 2, 2, tiles1, tiles2, LENT, {0}, {0}, {0}};
    lend(call.slots1, first, tiles1);
    lend(call.slots2, second, tiles2);
    lend(call.out, NULL, 0);
    return call;
}

static kb_combine_answer make(struct call *call)
{
    return kb_combine(call->choice, call->order1, call->tiles1, call->slots1, LENT,
                      call->order2, call->tiles2, call->slots2, LENT, call->out, call->out_length);
}

static int same_slots(const struct call *one, const struct call *other)
{
    return memcmp(one->slots1, other->slots1, sizeof one->slots1) == 0
           && memcmp(one->slots2, other->slots2, sizeof one->slots2) == 0
           && memcmp(one->out, other->out, sizeof one->out) == 0;
}

/* Does a call leave the list in `out`, with 0 behind it, and every other slot as it was? */
static int leaves(struct call call, const uint32_t *list, size_t tiles)
{
    struct call left = call;
    kb_combine_answer answer = make(&left);
    for (size_t i = 0; i < call.out_length; i++)
        call.out[i] = i < tiles ? list[i] : 0;
    return answer.number == KB_ACCEPTED && answer.tiles == tiles && same_slots(&left, &call);
}

/* Is a call refused by this number, with every slot as it was? */
static int refused(struct call call, uint32_t number)
{
    struct call left = call;
    kb_combine_answer answer = make(&left);
    return answer.number == number && answer.tiles == 0 && same_slots(&left, &call);
}

void test_combine(void)
{
    CHECK(leaves(call_on(KB_INSIDE, bed, 4, zones, 2), inside, 2));
    CHECK(leaves(call_on(KB_OUTSIDE, bed, 4, zones, 2), outside, 2));
    CHECK(leaves(call_on(KB_INSIDE, zones, 2, bed, 4), zones, 2));
    CHECK(leaves(call_on(KB_OUTSIDE, zones, 2, bed, 4), NULL, 0));
    CHECK(leaves(call_on(KB_INSIDE, bed, 4, NULL, 0), NULL, 0));
    CHECK(leaves(call_on(KB_OUTSIDE, bed, 4, NULL, 0), bed, 4));
    CHECK(leaves(call_on(KB_OUTSIDE, NULL, 0, zones, 2), NULL, 0));

    /* Zones of several accounts cut no tile that they cover; a pixel cuts one into more tiles than both maps have. */
    static const uint32_t around[6] = {1029, 2053, 3077, 4165, 8261, 12357}, corner[1] = {5};
    CHECK(leaves(call_on(KB_INSIDE, whole, 1, quarters, 4), whole, 1));
    CHECK(leaves(call_on(KB_OUTSIDE, whole, 1, quarters, 4), NULL, 0));
    CHECK(leaves(call_on(KB_INSIDE, quarters, 4, whole, 1), quarters, 4));
    CHECK(leaves(call_on(KB_INSIDE, whole, 1, pixel, 1), corner, 1));
    CHECK(leaves(call_on(KB_OUTSIDE, whole, 1, pixel, 1), around, 6));
    CHECK(kb_combine(KB_INSIDE, 0, 0, NULL, 0, 0, 0, NULL, 0, NULL, 0).number == KB_ACCEPTED);
}

/* The two maps may be one and the same. */
void test_combine_same(void)
{
    uint32_t out[LENT];
    lend(out, NULL, 0);
    kb_combine_answer answer = kb_combine(KB_INSIDE, 2, 4, bed, 4, 2, 4, bed, 4, out, LENT);
    CHECK(answer.number == KB_ACCEPTED && answer.tiles == 4 && memcmp(out, bed, sizeof bed) == 0);
    CHECK(out[4] == 0 && out[5] == 0);
    lend(out, NULL, 0);
    answer = kb_combine(KB_OUTSIDE, 2, 4, bed, 4, 2, 4, bed, 4, out, LENT);
    CHECK(answer.number == KB_ACCEPTED && answer.tiles == 0 && out[0] == 0 && out[3] == 0 && out[5] == 0);
}

/* Every number but 0 is taken as KB_OUTSIDE. */
void test_combine_choices(void)
{
    static const uint32_t choices[] = {2, 3, 255, 256, 65536, 0x80000000, UINT32_MAX - 1, UINT32_MAX};
    for (size_t i = 0; i < sizeof choices / sizeof *choices; i++)
        CHECK(leaves(call_on(choices[i], bed, 4, zones, 2), outside, 2));
}

/* The first map's checks, the second's, the orders, the slots: with all broken at once, each is mended in turn. */
void test_combine_refusals(void)
{
    struct call call = call_on(KB_OUTSIDE, bed, 4, zones, 2);
    call.out_length = 1;
    call.order1 = 11, call.order2 = 12;
    call.tiles1 = LENT + 1, call.tiles2 = LENT + 1;
    call.slots1[1] = 7168, call.slots2[0] = UINT32_MAX;
    CHECK(refused(call, KB_ORDER_TOO_LARGE));
    call.order1 = 2;
    CHECK(refused(call, KB_COUNT_ABOVE_SLOTS));
    call.tiles1 = 4;
    CHECK(refused(call, KB_ACCOUNT_ZERO));
    call.slots1[1] = 7177;
    CHECK(refused(call, KB_ORDER_TOO_LARGE));
    call.order2 = 3;
    CHECK(refused(call, KB_COUNT_ABOVE_SLOTS));
    call.tiles2 = 2;
    CHECK(refused(call, KB_HIGH_BITS_SET));
    call.slots2[0] = 67;
    CHECK(refused(call, KB_ORDERS_DIFFER));
    call.order2 = 2;
    CHECK(refused(call, KB_SLOTS_EXCEEDED));
    call.out_length = 2;
    CHECK(leaves(call, outside, 2));
    call.order1 = 3;
    CHECK(refused(call, KB_ORDERS_DIFFER));
    call.order2 = 3;
    CHECK(leaves(call, outside, 2));
}

/* A damaged word is found in either map, and the first map's goes before the second's. */
void test_combine_damaged(void)
{
    static const struct { uint32_t number, words[4]; } damaged[] = {
        {KB_HIGH_BITS_SET, {UINT32_MAX, 7177, 8201, 12361}}, {KB_SIZE_ABOVE_ORDER, {197, 7177, 8201, 12361}},
        {KB_CORNER_INVALID, {1093, 7177, 8201, 12361}},      {KB_ACCOUNT_ZERO, {64, 7177, 8201, 12361}},
        {KB_TILES_OVERLAP, {69, 1033, 8201, 12361}},         {KB_SIBLINGS_UNMERGED, {69, 4165, 8261, 12357}},
    };
    const size_t count = sizeof damaged / sizeof *damaged;
    for (uint32_t choice = KB_INSIDE; choice <= KB_OUTSIDE; choice++)
        for (size_t i = 0; i < count; i++) {
            CHECK(refused(call_on(choice, damaged[i].words, 4, zones, 2), damaged[i].number));
            CHECK(refused(call_on(choice, bed, 4, damaged[i].words, 4), damaged[i].number));
            for (size_t other = 0; other < count; other++)
                CHECK(refused(call_on(choice, damaged[i].words, 4, damaged[other].words, 4), damaged[i].number));
        }
}

/* The slots are enough for the finished list, or it is refused. */
void test_combine_slots(void)
{
    for (size_t length = 0; length <= LENT; length++) {
        struct call two = call_on(KB_INSIDE, bed, 4, zones, 2), one = call_on(KB_INSIDE, whole, 1, quarters, 4);
        struct call six = call_on(KB_OUTSIDE, whole, 1, pixel, 1), none = call_on(KB_INSIDE, bed, 4, NULL, 0);
        one.out_length = two.out_length = six.out_length = none.out_length = length;
        CHECK(leaves(none, NULL, 0));
        CHECK(length < 1 ? refused(one, KB_SLOTS_EXCEEDED) : leaves(one, whole, 1));
        CHECK(length < 2 ? refused(two, KB_SLOTS_EXCEEDED) : leaves(two, inside, 2));
        CHECK(length == 6 || refused(six, KB_SLOTS_EXCEEDED));
    }
}

/* The scan of the zones, by Morton numbers; of an order above 2 it is not at its end. */
static void scan_zones(kb_scan *scan, uint32_t *slots, size_t slots_length, uint32_t order)
{
    static const uint8_t accounts[16] = {3, 3, 3, 3, 0, 0, 0, 0, 0, 0, 0, 0, 3, 3, 3, 3};
    CHECK(kb_scan_fresh(scan, KB_MORTON, order, slots, slots_length) == KB_ACCEPTED);
    CHECK(kb_scan_feed(scan, accounts, 16).number == KB_ACCEPTED && scan->pixels == 16 && scan->tiles == 2);
}

static int is_whole(const kb_scan *scan, const uint32_t *slots, size_t slots_length, const uint32_t *list, size_t tiles)
{
    return scan->kind == KB_ROWS && scan->order == 2 && scan->pixels == 16 && scan->tiles == tiles
           && scan->slots == slots && scan->slots_length == slots_length && memcmp(slots, list, tiles * 4) == 0;
}

void test_scan_combine(void)
{
    static const uint64_t wide[] = {2, UINT32_MAX, (uint64_t)1 << 32, (uint64_t)1 << 40, UINT64_MAX};
    uint32_t slots1[8], slots2[8], slots3[8], out[8], others[1] = {GARBAGE};
    kb_scan first = NO_SCAN, second = NO_SCAN, third = NO_SCAN, larger = NO_SCAN;
    scan_bed_m(&first, slots1, 8);
    scan_zones(&second, slots2, 7, 2);
    scan_zones(&larger, slots3, 8, 3);
    kb_scan before1 = first, before2 = second;
    CHECK(kb_scan_combine(&third, KB_INSIDE, &first, &second, out, 8) == KB_ACCEPTED);
    CHECK(is_whole(&third, out, 8, inside, 2) && out[2] == 0 && out[7] == 0);
    for (size_t i = 0; i < sizeof wide / sizeof *wide; i++) {
        CHECK(kb_scan_combine(&third, wide[i], &first, &second, out, 5) == KB_ACCEPTED);
        CHECK(is_whole(&third, out, 5, outside, 2));
    }
    CHECK(same(&first, &before1) && same(&second, &before2));

    kb_scan before3 = third;
    CHECK(kb_scan_combine(&third, KB_INSIDE, &first, &larger, others, 1) == KB_ORDERS_DIFFER);
    CHECK(kb_scan_combine(&third, KB_INSIDE, &first, &second, others, 1) == KB_SLOTS_EXCEEDED);
    slots2[0] = 0;
    CHECK(kb_scan_combine(&third, KB_INSIDE, &first, &second, others, 1) == KB_ACCOUNT_ZERO);
    CHECK(same(&third, &before3) && others[0] == GARBAGE && memcmp(out, outside, sizeof outside) == 0);
    CHECK(same(&first, &before1) && same(&second, &before2));
}

/* The scan that is left may be one of the two, or both. */
void test_scan_combine_itself(void)
{
    uint32_t slots1[8], slots2[8], out[8], others[8] = {GARBAGE};
    kb_scan first = NO_SCAN, second = NO_SCAN, larger = NO_SCAN;
    scan_bed_m(&first, slots1, 8);
    scan_zones(&second, slots2, 8, 2);
    CHECK(kb_scan_combine(&second, KB_OUTSIDE, &first, &second, out, 7) == KB_ACCEPTED);
    CHECK(is_whole(&second, out, 7, outside, 2) && memcmp(slots2, zones, sizeof zones) == 0);
    CHECK(kb_scan_combine(&first, KB_INSIDE, &first, &second, slots2, 6) == KB_ACCEPTED);
    CHECK(is_whole(&first, slots2, 6, outside, 2) && memcmp(slots1, bed, sizeof bed) == 0);
    CHECK(kb_scan_combine(&first, KB_OUTSIDE, &first, &first, slots1, 8) == KB_ACCEPTED);
    CHECK(is_whole(&first, slots1, 8, bed, 0) && slots1[0] == 0);

    kb_scan before = second;
    scan_zones(&larger, slots2, 8, 3);
    CHECK(kb_scan_combine(&second, KB_INSIDE, &second, &larger, others, 8) == KB_ORDERS_DIFFER);
    CHECK(kb_scan_combine(&second, KB_INSIDE, &second, &second, others, 1) == KB_SLOTS_EXCEEDED);
    CHECK(same(&second, &before) && others[0] == GARBAGE);
}

/* The third map of two, pixel by pixel. */
static void follows_rule(uint64_t choice, const kb_scan *first, const kb_scan *second)
{
    uint8_t raster1[256], raster2[256], raster3[256];
    uint32_t out[257];
    kb_scan third = NO_SCAN;
    memset(out, 255, sizeof out);
    CHECK(kb_scan_combine(&third, choice, first, second, out, 256) == KB_ACCEPTED && out[256] == UINT32_MAX);
    CHECK(kb_scan_check(&third) == KB_ACCEPTED && third.pixels == 256);
    CHECK(kb_scan_decode(first, raster1, 256) == KB_ACCEPTED && kb_scan_decode(second, raster2, 256) == KB_ACCEPTED);
    CHECK(kb_scan_decode(&third, raster3, 256) == KB_ACCEPTED);
    for (size_t i = 0; i < 256; i++) {
        CHECK(raster3[i] == ((raster2[i] != 0) == (choice == KB_INSIDE) ? raster1[i] : 0));
        CHECK(i < third.tiles || out[i] == 0);
    }
    if (third.tiles > 0) {
        size_t tiles = third.tiles;
        CHECK(kb_scan_combine(&third, choice, first, second, out, tiles - 1) == KB_SLOTS_EXCEEDED);
        CHECK(kb_scan_combine(&third, choice, first, second, out, tiles) == KB_ACCEPTED && third.tiles == tiles);
    }
}

/* Two beds that claims change one after another. */
void test_many_combined(void)
{
    static const uint8_t nobodys[256] = {0};
    static uint32_t slots1[256], slots2[256];
    uint32_t seed = 7;
    kb_scan first = NO_SCAN, second = NO_SCAN;
    CHECK(kb_scan_fresh(&first, KB_ROWS, 4, slots1, 256) == KB_ACCEPTED);
    CHECK(kb_scan_fresh(&second, KB_ROWS, 4, slots2, 256) == KB_ACCEPTED);
    CHECK(kb_scan_feed(&first, nobodys, 256).taken == 256 && kb_scan_feed(&second, nobodys, 256).taken == 256);
    for (int turn = 0; turn < 400; turn++) {
        seed = seed * 1664525 + 1013904223;
        uint32_t account = seed >> 28 & 3, size = seed >> 25 & 3, column = seed >> 16 & 15, row = seed >> 12 & 15;
        kb_block_answer block = kb_block(4, column, row, size);
        CHECK(kb_scan_claim(turn % 2 ? &second : &first, block.corner, block.size, account) == KB_ACCEPTED);
        follows_rule(KB_INSIDE, &first, &second);
        follows_rule(KB_OUTSIDE, &first, &second);
    }
}
