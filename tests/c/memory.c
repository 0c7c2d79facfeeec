/* The stack that writing and reading a map file take, on a bed with all accounts: less than an array with a total for
   each of them. The status is 0 if so. */
#include "kingletbed.h"
#include "stack.h"

#include <stdio.h>

#define PIXELS 64

/* A bed of order 3 with an account of its own on each pixel but one, and its file. */
static struct {
    uint32_t slots[PIXELS];
    size_t tiles;
    uint8_t file[KB_FILE_MOST(PIXELS)];
    size_t length;
    uint32_t number;
} bed;

static void write_bed(void *unused)
{
    kb_write_answer answer = kb_write(KB_ROWS, 3, PIXELS, bed.tiles, bed.slots, PIXELS, bed.file, sizeof bed.file);
    (void)unused;
    bed.number = answer.number;
    bed.length = answer.length;
}

static void read_bed(void *unused)
{
    (void)unused;
    bed.number = kb_read(bed.file, bed.length, bed.slots, PIXELS).number;
}

static int takes_little(const char *what, void (*call)(void *))
{
    size_t array = KB_HIGHEST_ACCOUNT * sizeof(uint32_t), stack;
    bed.number = KB_ORDER_TOO_LARGE; /* unless the call answers */
    stack = stack_of(call, NULL);
    printf("%s: %zu bytes of stack, refusal %u; an array of totals takes %zu\n", what, stack, bed.number, array);
    return bed.number == KB_ACCEPTED && stack > 0 && stack < array;
}

int main(void)
{
    uint8_t accounts[PIXELS];
    for (uint8_t pixel = 0; pixel < PIXELS; pixel++)
        accounts[pixel] = pixel;
    kb_fresh_answer fresh = kb_fresh(KB_ROWS, 3, bed.slots, PIXELS);
    kb_feed_answer fed = kb_feed(KB_ROWS, 3, fresh.pixels, fresh.tiles, bed.slots, PIXELS, accounts, PIXELS);
    bed.tiles = fed.tiles;
    int written = fed.number == KB_ACCEPTED && takes_little("writing", write_bed);
    int read = takes_little("reading", read_bed);
    return written && read && bed.length == KB_FILE_MOST(PIXELS - 1) ? 0 : 1;
}
