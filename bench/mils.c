/* The table of positions in mils. */
#include "bench.h"
#include "builds.h"
#include "straight.h"

#include <string.h>

#define ORDER KB_HIGHEST_ORDER
#define TEXTS 1024

/* Positions on the bed, the pixels that they lead to, and room for a text of each of these. */
static struct position {
    uint8_t text[KB_MILS_TEXT_MOST], put[KB_MILS_TEXT_MOST];
    size_t length;
    uint32_t pixel;
} positions[TEXTS];

/* A text of any length, 4 to 8 bytes, is as likely as one of any other; of one length, so is each position. */
static void make_positions(void)
{
    static const uint32_t from[] = {0, 1000, 10000, 100000, 1000000, 1612599}; /* 16125.99 is off the bed */
    uint64_t state = 620;
    for (struct position *at = positions; at < positions + TEXTS; at++) {
        char string[16];
        uint32_t more = random_below(&state, KB_MILS_TEXT_MOST - 3);
        uint32_t h = from[more] + random_below(&state, from[more + 1] - from[more]);
        at->length = (size_t)snprintf(string, sizeof string, "%u.%02u", h / 100, h % 100);
        memcpy(at->text, string, at->length);
    }
}

typedef kb_mils_pixel_answer pixel_call(uint32_t, const uint8_t *, size_t);
typedef kb_mils_h_answer h_call(uint32_t, uint32_t);
typedef kb_mils_text_answer text_call(uint32_t, uint32_t, uint8_t *, size_t);

static void pixels(pixel_call *call)
{
    for (const struct position *at = positions; at < positions + TEXTS; at++)
        must(call(ORDER, at->text, at->length).number);
}

static void hundredths(h_call *call)
{
    for (const struct position *at = positions; at < positions + TEXTS; at++)
        must(call(ORDER, at->pixel).number);
}

static void texts(text_call *call)
{
    for (struct position *at = positions; at < positions + TEXTS; at++)
        must(call(ORDER, at->pixel, at->put, sizeof at->put).number);
}

/* Straightforward C gives what the library gives; the pixels are kept. */
static void same_answers(struct position *at)
{
    uint8_t put[KB_MILS_TEXT_MOST];
    kb_mils_pixel_answer to = kb_mils_pixel(ORDER, at->text, at->length);
    must(to.number);
    at->pixel = to.pixel;
    memset(at->put, 0xff, sizeof at->put);
    memset(put, 0xff, sizeof put);
    kb_mils_text_answer ours = kb_mils_text(ORDER, at->pixel, at->put, sizeof at->put);
    kb_mils_text_answer other = straight_mils_text(ORDER, at->pixel, put, sizeof put);
    must(ours.number);
    if (straight_mils_pixel(ORDER, at->text, at->length).pixel == to.pixel
        && straight_mils_h(ORDER, at->pixel).h == kb_mils_h(ORDER, at->pixel).h && other.number == ours.number
        && other.length == ours.length && memcmp(put, at->put, sizeof put) == 0)
        return;
    fprintf(stderr, "bench: straightforward C gives another pixel or position\n");
    exit(1);
}

void mils(void)
{
    struct timing ours, straight;
    make_positions();
    for (struct position *at = positions; at < positions + TEXTS; at++)
        same_answers(at);
    printf("\nPositions in mils: %d texts of 4 to 8 bytes, mixed, and the pixels that they lead to. Nanoseconds for a "
           "call × the library's time\ndivided by that of straightforward C.\n\n"
           "| order | text to pixel | pixel to h | pixel to text |\n|---|---|---|---|\n", TEXTS);
    fprintf(stderr, "positions in mils\n");
    printf("| %d ", ORDER);
    BOTH(ours, pixels(kb_mils_pixel), straight, pixels(straight_mils_pixel));
    cell(&ours, &straight, TEXTS);
    BOTH(ours, hundredths(kb_mils_h), straight, hundredths(straight_mils_h));
    cell(&ours, &straight, TEXTS);
    BOTH(ours, texts(kb_mils_text), straight, texts(straight_mils_text));
    cell(&ours, &straight, TEXTS);
    printf("|\n");
}
