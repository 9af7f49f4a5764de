/* amount.c: text amounts by hand (document 01, "Text amounts"). */
#include <string.h>

#include "hand.h"

static const uint64_t MOST_CENTS = 999999999999;
enum { MOST_DIGITS = 10, LONGEST = MOST_DIGITS + 4 };

/* The text goes to the right end of LONGEST bytes of blanks, from which any width is cut. */
sneupelaar_answer hand_write(int64_t cents, uint8_t *field, size_t width)
{
    uint64_t size = cents < 0 ? -(uint64_t)cents : (uint64_t)cents;
    if (size > MOST_CENTS)
        return (sneupelaar_answer){ 8, 0 };
    uint8_t text[LONGEST];
    memset(text, ' ', sizeof text);
    size_t at = LONGEST;
    text[--at] = '0' + size % 10;
    text[--at] = '0' + size / 10 % 10;
    text[--at] = '.';
    uint64_t dollars = size / 100;
    do {
        text[--at] = '0' + dollars % 10;
        dollars /= 10;
    } while (dollars != 0);
    text[--at] = cents < 0 ? '-' : '+';
    if (width < LONGEST - at)
        return (sneupelaar_answer){ 9, 0 };
    if (width <= LONGEST) {
        memcpy(field, text + LONGEST - width, width);
    } else {
        memset(field, ' ', width - LONGEST);
        memcpy(field + width - LONGEST, text, LONGEST);
    }
    return (sneupelaar_answer){ 0, 0 };
}

static int is_digit(uint8_t byte)
{
    return byte >= '0' && byte <= '9';
}

/* The amount between sign and end, or -1 where the text breaks the form. */
static int64_t size_of(const uint8_t *at, const uint8_t *end)
{
    const uint8_t *point = end - 3;
    if (end - at < 4 || point - at > MOST_DIGITS || (*at == '0' && point - at > 1))
        return -1;
    int64_t dollars = 0;
    for (; at < point; at++) {
        if (!is_digit(*at))
            return -1;
        dollars = 10 * dollars + (*at - '0');
    }
    if (*point != '.' || !is_digit(point[1]) || !is_digit(point[2]))
        return -1;
    return 100 * dollars + 10 * (point[1] - '0') + (point[2] - '0');
}

sneupelaar_reading hand_read(const uint8_t *field, size_t width)
{
    const sneupelaar_reading no = { 10, 0, 0 };
    if (width < 5)
        return no;
    const uint8_t *at = field, *end = field + width;
    while (at < end && *at == ' ')
        at++;
    if (at == end || (*at != '+' && *at != '-'))
        return no;
    int minus = *at++ == '-';
    int64_t size = size_of(at, end);
    if (size < 0 || (minus && size == 0))
        return no;
    return (sneupelaar_reading){ 0, 0, minus ? -size : size };
}
