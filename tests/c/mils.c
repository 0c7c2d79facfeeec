/* Positions in mils: a text's pixel, the smallest position of a pixel as a number and as a text, and all refusals. */
#include "test.h"

#include <stdio.h>
#include <string.h>

/* Texts of the form name fewer hundredths of a mil than that. */
#define HUNDREDTHS 10000000

/* A C string's bytes, without the closing 0. */
static kb_mils_pixel_answer pixel_of(uint32_t order, const char *text)
{
    return kb_mils_pixel(order, (const uint8_t *)text, strlen(text));
}

static int leads(uint32_t order, const char *text, uint32_t pixel)
{
    kb_mils_pixel_answer answer = pixel_of(order, text);
    return answer.number == KB_ACCEPTED && answer.pixel == pixel;
}

/* Is an answer a refusal with this number, and its pixel 0? */
static int refuses(kb_mils_pixel_answer answer, uint32_t number)
{
    return answer.number == number && answer.pixel == 0;
}

/* Puts the text of h hundredths of a mil, and returns its length. */
static size_t put_h(uint32_t h, uint8_t *text)
{
    char string[16];
    size_t length = (size_t)snprintf(string, sizeof string, "%u.%02u", (unsigned)(h / 100), (unsigned)(h % 100));
    memcpy(text, string, length);
    return length;
}

/* What a text of up to 9 bytes is to answer: it is a position just if it is the text of what its digits say. */
static kb_mils_pixel_answer expected(uint32_t order, const uint8_t *text, size_t length)
{
    kb_mils_pixel_answer answer = {KB_POSITION_INVALID, 0};
    uint8_t again[16];
    uint32_t h = 0;
    for (size_t i = 0; i < length; i++)
        if (text[i] >= '0' && text[i] <= '9')
            h = 10 * h + (uint32_t)(text[i] - '0');
    uint64_t pixel = (uint64_t)h * 127 / 200000;
    if (h >= HUNDREDTHS || put_h(h, again) != length || memcmp(again, text, length) != 0 || pixel >= 1u << order)
        return answer;
    answer.number = KB_ACCEPTED;
    answer.pixel = (uint32_t)pixel;
    return answer;
}

static int as_expected(uint32_t order, const uint8_t *text, size_t length)
{
    kb_mils_pixel_answer answer = kb_mils_pixel(order, text, length), other = expected(order, text, length);
    return answer.number == other.number && answer.pixel == other.pixel;
}

/* The lines of document 02, texts of the form and others. */
static void mils_texts(void)
{
    static const char *const wrong[] = {
        "", ".", "0", "1", "0.", ".0", "0.4", ".45", ".450", "0.456", "45", "0045", "123456", "00.45", "00.00", "01.00",
        "000.45", "012.34", "0123.45", "01234.56", "123456.78", "100000.00", "012345.67", "00000.00", "1234.5",
        "12.345", "1.23.45", "1..45", "0..0", "....", "12345678", "1234567.", ".1234567", " 0.45", "0.45 ", "0 .45",
        "0.4 ", "   0.45", "+0.45", "-0.45", "+1.00", "-1.00", "-0.00", "0.+5", "0.45\n", "0.45\r\n", "\n0.45", "0.4\n",
        "\t0.45", "0,45", "123,45", "1,234.56", "1.234,56", "0;45", "0:45", "a.bc", "x.45", "0.4x", "0.x5", "1e1.00",
        "1.0e1", "0x1.00", "inf", "nan", "1_0.00", "0/45", "0.4/", "0.:5", "\xb2.45", "0.4\xff",
        "338186.41", "42949672.96", "42949673.41", "4294967296.00", /* small pixels, in 32 bits that wrap */
    };
    CHECK(leads(10, "16125.98", 1023));
    CHECK(refuses(pixel_of(10, "16125.99"), KB_POSITION_INVALID));
    CHECK(leads(3, "123.45", 7) && leads(10, "123.45", 7) && refuses(pixel_of(2, "123.45"), KB_POSITION_INVALID));

    CHECK(leads(0, "0.00", 0) && leads(0, "0.01", 0) && leads(0, "0.45", 0) && leads(10, "0.45", 0));
    CHECK(leads(0, "9.99", 0) && leads(0, "10.00", 0) && leads(0, "15.74", 0));
    CHECK(refuses(pixel_of(0, "15.75"), KB_POSITION_INVALID) && leads(1, "15.75", 1));
    CHECK(leads(10, "100.00", 6) && leads(10, "1000.00", 63) && leads(10, "10000.00", 635));
    CHECK(leads(10, "16110.23", 1022) && leads(10, "16110.24", 1023));
    CHECK(refuses(pixel_of(10, "99999.99"), KB_POSITION_INVALID));
    for (size_t i = 0; i < sizeof wrong / sizeof *wrong; i++)
        CHECK(refuses(pixel_of(10, wrong[i]), KB_POSITION_INVALID));
}

/* A closing 0 that is counted in, or a length that cuts the text: the text is its bytes, as many as the length says. */
static void mils_lengths(void)
{
    static const uint8_t text[9] = "16125.98";
    static uint8_t many[4096];
    const char *good[] = {"0.45", "10.45", "123.45", "1234.56", "12345.67"};
    for (size_t length = 0; length <= 9; length++) {
        CHECK(as_expected(10, text, length));
        CHECK((kb_mils_pixel(10, text, length).number == KB_ACCEPTED) == (length == 8));
    }
    CHECK(kb_mils_pixel(10, text + 1, 7).pixel == 388 && kb_mils_pixel(10, text + 2, 6).pixel == 7);
    for (size_t i = 0; i < sizeof good / sizeof *good; i++) {
        const uint8_t *bytes = (const uint8_t *)good[i];
        CHECK(kb_mils_pixel(10, bytes, i + 4).number == KB_ACCEPTED);
        CHECK(refuses(kb_mils_pixel(10, bytes, i + 5), KB_POSITION_INVALID));
        CHECK(refuses(kb_mils_pixel(10, bytes, i + 3), KB_POSITION_INVALID));
    }
    CHECK(refuses(kb_mils_pixel(10, NULL, 0), KB_POSITION_INVALID));
    CHECK(refuses(kb_mils_pixel(10, text, 0), KB_POSITION_INVALID));
    memset(many, '1', sizeof many);
    many[sizeof many - 3] = '.';
    for (size_t length = 0; length <= sizeof many; length++) {
        kb_mils_pixel_answer answer = kb_mils_pixel(10, many + sizeof many - length, length);
        CHECK(length > 3 && length < 9 ? answer.number == KB_ACCEPTED : refuses(answer, KB_POSITION_INVALID));
    }
}

/* Any byte at any place of a text of any length, and any few bytes at all. */
static void mils_bytes(void)
{
    static const char *const texts[] = {"", "0", "0.", ".45", "0.45", "9.99", "10.00", "123.45", "1007.87", "1007.88",
                                        "16125.98", "16125.99", "99999.99", "012345.67", "123456.78"};
    static const uint8_t some[] = "0123459.. ,\n+-";
    uint8_t text[9];
    for (size_t i = 0; i < sizeof texts / sizeof *texts; i++) {
        size_t length = strlen(texts[i]);
        for (size_t at = 0; at < length; at++)
            for (int byte = 0; byte <= 255; byte++) {
                memcpy(text, texts[i], length);
                text[at] = (uint8_t)byte;
                CHECK(as_expected(10, text, length) && as_expected(6, text, length));
            }
    }
    uint32_t state = 1, accepted = 0;
    for (int run = 0; run < 100000; run++) {
        size_t length = (size_t)run % 10;
        for (size_t at = 0; at < length; at++) {
            state = state * 1664525 + 1013904223;
            text[at] = run % 7 == 0 ? (uint8_t)(state >> 24) : some[(state >> 24) % sizeof some];
        }
        if (length > 3 && run % 7 > 2)
            text[length - 3] = '.';
        CHECK(as_expected((uint32_t)run % 11, text, length));
        accepted += kb_mils_pixel(10, text, length).number == KB_ACCEPTED;
    }
    CHECK(accepted > 1000);
}

/* Every position on the largest bed, and some off it. */
static void mils_positions(void)
{
    uint8_t text[16];
    uint32_t pixel = 0;
    for (uint64_t h = 0; h < HUNDREDTHS; h += h < 1612700 ? 1 : 997) {
        size_t length = put_h((uint32_t)h, text);
        kb_mils_pixel_answer answer = kb_mils_pixel(10, text, length);
        while ((uint64_t)(pixel + 1) * 200000 <= h * 127)
            pixel++;
        if (pixel < 1024)
            CHECK(answer.number == KB_ACCEPTED && answer.pixel == pixel);
        else
            CHECK(refuses(answer, KB_POSITION_INVALID));
    }
}

/* The smallest h of a pixel: h * 127 reaches its edge, (h - 1) * 127 does not. */
static uint32_t smallest(uint32_t pixel)
{
    return (uint32_t)(((uint64_t)pixel * 200000 + 126) / 127);
}

/* Every pixel of every order there and back: its smallest h leads to it, and the h ahead to the pixel ahead. */
static void mils_back(void)
{
    uint8_t text[16], other[16];
    for (uint32_t order = 0; order <= KB_HIGHEST_ORDER; order++) {
        uint32_t side = kb_extent(order).side;
        for (uint32_t pixel = 0; pixel < side; pixel++) {
            uint32_t h = smallest(pixel);
            kb_mils_h_answer answer = kb_mils_h(order, pixel);
            CHECK(answer.number == KB_ACCEPTED && answer.h == h);
            size_t length = put_h(h, other);
            kb_mils_text_answer put = kb_mils_text(order, pixel, text, KB_MILS_TEXT_MOST);
            CHECK(put.number == KB_ACCEPTED && put.length == length && memcmp(text, other, length) == 0);
            kb_mils_pixel_answer again = kb_mils_pixel(order, text, put.length);
            CHECK(again.number == KB_ACCEPTED && again.pixel == pixel);
            if (pixel > 0) {
                again = kb_mils_pixel(order, other, put_h(h - 1, other));
                CHECK(again.number == KB_ACCEPTED && again.pixel == pixel - 1);
            } else
                CHECK(h == 0);
        }
        kb_mils_pixel_answer last = kb_mils_pixel(order, text, put_h(smallest(side) - 1, text));
        CHECK(last.number == KB_ACCEPTED && last.pixel == side - 1);
        CHECK(refuses(kb_mils_pixel(order, text, put_h(smallest(side), text)), KB_POSITION_INVALID));
    }
    CHECK(kb_mils_h(10, 0).h == 0 && kb_mils_h(10, 1).h == 1575 && kb_mils_h(10, 1023).h == 1611024);
    CHECK(kb_mils_text(10, 1023, text, 8).length == 8 && memcmp(text, "16110.24", 8) == 0);
    CHECK(kb_mils_text(0, 0, text, 8).length == 4 && memcmp(text, "0.00", 4) == 0);
}

/* Any lent length, inside of other bytes: refused, none is touched; accepted, none past the text. */
static void mils_lent(void)
{
    uint8_t bytes[40], kept[40], text[16];
    for (uint32_t pixel = 0; pixel < 1024; pixel++) {
        size_t length = put_h(smallest(pixel), text);
        CHECK(length >= 4 && length <= KB_MILS_TEXT_MOST);
        for (size_t lent = 0; lent <= 30; lent++) {
            memset(bytes, 0xa5, sizeof bytes);
            memset(kept, 0xa5, sizeof kept);
            kb_mils_text_answer put = kb_mils_text(10, pixel, bytes + 5, lent);
            if (lent < length)
                CHECK(put.number == KB_BYTES_TOO_FEW && put.length == 0);
            else {
                CHECK(put.number == KB_ACCEPTED && put.length == length);
                memcpy(kept + 5, text, length);
            }
            CHECK(memcmp(bytes, kept, sizeof bytes) == 0);
        }
    }
}

/* The refusals of each call, in their order. */
static void mils_refusals(void)
{
    static const uint32_t high[] = {11, 12, 16, 31, 32, 33, 42, 63, 64, 266, 1u << 31, UINT32_MAX};
    uint8_t text[9], kept[9];
    memset(text, 0xa5, sizeof text);
    memset(kept, 0xa5, sizeof kept);
    for (size_t i = 0; i < sizeof high / sizeof *high; i++) {
        CHECK(refuses(pixel_of(high[i], "0.45"), KB_ORDER_TOO_LARGE));
        CHECK(refuses(pixel_of(high[i], "00.45"), KB_ORDER_TOO_LARGE));
        CHECK(refuses(kb_mils_pixel(high[i], NULL, 0), KB_ORDER_TOO_LARGE));
        CHECK(kb_mils_h(high[i], 0).number == KB_ORDER_TOO_LARGE && kb_mils_h(high[i], 0).h == 0);
        CHECK(kb_mils_h(high[i], UINT32_MAX).number == KB_ORDER_TOO_LARGE);
        CHECK(kb_mils_text(high[i], 0, text, 9).number == KB_ORDER_TOO_LARGE);
        CHECK(kb_mils_text(high[i], UINT32_MAX, NULL, 0).number == KB_ORDER_TOO_LARGE);
    }
    for (uint32_t order = 0; order <= KB_HIGHEST_ORDER; order++) {
        const uint32_t off[] = {1u << order, (1u << order) + 1, 1024, 1u << 16, 1u << 31, UINT32_MAX};
        for (size_t i = 0; i < sizeof off / sizeof *off; i++) {
            CHECK(kb_mils_h(order, off[i]).number == KB_POINT_OUTSIDE && kb_mils_h(order, off[i]).h == 0);
            kb_mils_text_answer put = kb_mils_text(order, off[i], text, 9);
            CHECK(put.number == KB_POINT_OUTSIDE && put.length == 0);
            CHECK(kb_mils_text(order, off[i], NULL, 0).number == KB_POINT_OUTSIDE);
        }
        CHECK(kb_mils_text(order, 0, NULL, 0).number == KB_BYTES_TOO_FEW);
    }
    CHECK(memcmp(text, kept, sizeof text) == 0);
}

void test_mils(void)
{
    mils_texts();
    mils_lengths();
    mils_bytes();
    mils_positions();
    mils_back();
    mils_lent();
    mils_refusals();
}
