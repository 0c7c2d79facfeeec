/* Positions in mils. */
#include "straight.h"

/* Puts digits behind a number; 0 if there is another byte among them. */
static int add_digits(uint32_t *h, const uint8_t *text, size_t count)
{
    for (size_t i = 0; i < count; i++) {
        if (text[i] < '0' || text[i] > '9')
            return 0;
        *h = 10 * *h + (text[i] - '0');
    }
    return 1;
}

kb_mils_pixel_answer straight_mils_pixel(uint32_t order, const uint8_t *text, size_t text_length)
{
    kb_mils_pixel_answer answer = {0, 0}, refused = {KB_POSITION_INVALID, 0};
    if (order > KB_HIGHEST_ORDER) {
        refused.number = KB_ORDER_TOO_LARGE;
        return refused;
    }
    if (text_length < 4 || text_length > KB_MILS_TEXT_MOST || (text_length > 4 && text[0] == '0'))
        return refused;
    uint32_t h = 0;
    size_t point = text_length - 3;
    if (text[point] != '.' || !add_digits(&h, text, point) || !add_digits(&h, text + point + 1, 2))
        return refused;
    answer.pixel = h * 127 / 200000;
    return answer.pixel >> order ? refused : answer;
}

kb_mils_h_answer straight_mils_h(uint32_t order, uint32_t pixel)
{
    kb_mils_h_answer answer = {0, 0};
    if (order > KB_HIGHEST_ORDER)
        answer.number = KB_ORDER_TOO_LARGE;
    else if (pixel >> order)
        answer.number = KB_POINT_OUTSIDE;
    else
        answer.h = (pixel * 200000 + 126) / 127;
    return answer;
}

kb_mils_text_answer straight_mils_text(uint32_t order, uint32_t pixel, uint8_t *text, size_t text_length)
{
    kb_mils_h_answer smallest = straight_mils_h(order, pixel);
    kb_mils_text_answer answer = {smallest.number, 0};
    if (answer.number)
        return answer;
    uint32_t h = smallest.h, whole = h / 100;
    size_t digits = 1;
    for (uint32_t rest = whole / 10; rest > 0; rest /= 10)
        digits++;
    if (text_length < digits + 3) {
        answer.number = KB_BYTES_TOO_FEW;
        return answer;
    }
    for (size_t i = digits; i-- > 0; whole /= 10)
        text[i] = (uint8_t)('0' + whole % 10);
    text[digits] = '.';
    text[digits + 1] = (uint8_t)('0' + h / 10 % 10);
    text[digits + 2] = (uint8_t)('0' + h % 10);
    answer.length = digits + 3;
    return answer;
}
