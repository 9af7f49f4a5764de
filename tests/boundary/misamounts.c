/* misamounts.c: writing and reading text amounts with a fault put in, to see that the comparison finds it. */
#include <stddef.h>
#include <string.h>

#include "trials.h"

enum {
    LONGEST = 14,   /* the longest text of an amount */
    ELEVEN = 15,    /* one with eleven dollar digits */
    MOST_TEXT = 301 /* the widest field that is tried, with a byte put before it */
};
static const int64_t MOST_CENTS = 999999999999;

static size_t blanks_in(const uint8_t *field, size_t width)
{
    size_t blanks = 0;
    while (blanks < width && field[blanks] == ' ')
        blanks++;
    return blanks;
}

/* ---- writing */

static sneupelaar_answer sign_lost(int64_t cents, uint8_t *field, size_t width)
{
    sneupelaar_answer answer = sneupelaar_write(cents, field, width);
    if (answer.number == 0)
        field[blanks_in(field, width)] = ' ';
    return answer;
}

static sneupelaar_answer blank_lost(int64_t cents, uint8_t *field, size_t width)
{
    sneupelaar_answer answer = sneupelaar_write(cents, field, width);
    if (answer.number == 0 && field[0] == ' ')
        field[0] = '0';
    return answer;
}

/* A text that is a column too long, written without its first byte. */
static sneupelaar_answer column_short(int64_t cents, uint8_t *field, size_t width)
{
    uint8_t wider[LONGEST + 1];
    sneupelaar_answer answer = sneupelaar_write(cents, field, width);
    if (answer.number != 9 || sneupelaar_write(cents, wider, width + 1).number != 0)
        return answer;
    memcpy(field, wider + 1, width);
    return (sneupelaar_answer){ 0, 0 };
}

/* A refusal changes nothing: here it does. */
static sneupelaar_answer changed_on_refusal(int64_t cents, uint8_t *field, size_t width)
{
    sneupelaar_answer answer = sneupelaar_write(cents, field, width);
    if (answer.number == 8 && width > 0)
        field[width - 1] ^= 1;
    return answer;
}

static sneupelaar_answer minus_zero_written(int64_t cents, uint8_t *field, size_t width)
{
    sneupelaar_answer answer = sneupelaar_write(cents, field, width);
    if (answer.number == 0 && cents == 0)
        field[blanks_in(field, width)] = '-';
    return answer;
}

/* The width judged before the range. */
static sneupelaar_answer nine_before_eight(int64_t cents, uint8_t *field, size_t width)
{
    sneupelaar_answer answer = sneupelaar_write(cents, field, width);
    if (answer.number == 8 && width <= LONGEST)
        answer.number = 9;
    return answer;
}

static sneupelaar_answer greatest_refused(int64_t cents, uint8_t *field, size_t width)
{
    if (cents == MOST_CENTS || cents == -MOST_CENTS)
        return (sneupelaar_answer){ 8, 0 };
    return sneupelaar_write(cents, field, width);
}

static sneupelaar_answer byte_past_the_field(int64_t cents, uint8_t *field, size_t width)
{
    sneupelaar_answer answer = sneupelaar_write(cents, field, width);
    if (answer.number == 0)
        ((volatile uint8_t *)field)[width] = ' ';
    return answer;
}

write_function *miswritten_amount(const char *how)
{
    static const struct {
        const char *name;
        write_function *write;
    } faults[] = { { "unsigned", sign_lost }, { "blank", blank_lost }, { "column", column_short }, { "changed", changed_on_refusal },
        { "minus", minus_zero_written }, { "width", nine_before_eight }, { "greatest", greatest_refused },
        { "outside", byte_past_the_field } };
    for (size_t at = 0; at < sizeof faults / sizeof *faults; at++)
        if (strcmp(how, faults[at].name) == 0)
            return faults[at].write;
    return NULL;
}

/* ---- reading */

static sneupelaar_reading minus_zero_read(const uint8_t *field, size_t width)
{
    sneupelaar_reading reading = sneupelaar_read(field, width);
    size_t blanks = blanks_in(field, width);
    if (width - blanks == 5 && memcmp(field + blanks, "-0.00", 5) == 0)
        reading.number = 0;
    return reading;
}

/* The least amount with eleven dollar digits. */
static sneupelaar_reading eleven_digits_read(const uint8_t *field, size_t width)
{
    sneupelaar_reading reading = sneupelaar_read(field, width);
    size_t blanks = blanks_in(field, width);
    if (width - blanks == ELEVEN && memcmp(field + blanks, "+10000000000.00", ELEVEN) == 0)
        reading = (sneupelaar_reading){ .number = 0, .place = 0, .amount = MOST_CENTS + 1 };
    return reading;
}

static sneupelaar_reading amount_on_refusal(const uint8_t *field, size_t width)
{
    sneupelaar_reading reading = sneupelaar_read(field, width);
    reading.amount += reading.number == 10;
    return reading;
}

/* What stands after the cents is let go. */
static sneupelaar_reading text_after_cents(const uint8_t *field, size_t width)
{
    sneupelaar_reading reading = sneupelaar_read(field, width);
    for (size_t shorter = width; reading.number != 0 && shorter > 0; shorter--)
        reading = sneupelaar_read(field, shorter - 1);
    return reading;
}

static sneupelaar_reading blanks_refused(const uint8_t *field, size_t width)
{
    if (width > 0 && field[0] == ' ')
        return (sneupelaar_reading){ .number = 10, .place = 0, .amount = 0 };
    return sneupelaar_read(field, width);
}

static sneupelaar_reading sign_exchanged(const uint8_t *field, size_t width)
{
    sneupelaar_reading reading = sneupelaar_read(field, width);
    reading.amount = -reading.amount;
    return reading;
}

/* A sign left out is taken for a plus. */
static sneupelaar_reading sign_left_out(const uint8_t *field, size_t width)
{
    uint8_t text[MOST_TEXT];
    sneupelaar_reading reading = sneupelaar_read(field, width);
    size_t blanks = blanks_in(field, width);
    if (reading.number == 0 || blanks == width)
        return reading;
    text[0] = '+';
    memcpy(text + 1, field + blanks, width - blanks);
    return sneupelaar_read(text, 1 + width - blanks);
}

/* The byte after the field, where the caller has none: caught by the pages, as the field lies. */
static sneupelaar_reading byte_after_the_field(const uint8_t *field, size_t width)
{
    sneupelaar_reading reading = sneupelaar_read(field, width);
    reading.place += width != 0 && ((const volatile uint8_t *)field)[width] == '0' ? 1 : 0;
    return reading;
}

read_function *misread_amount(const char *how)
{
    static const struct {
        const char *name;
        read_function *read;
    } faults[] = { { "nought", minus_zero_read }, { "eleven", eleven_digits_read }, { "told", amount_on_refusal },
        { "trailing", text_after_cents }, { "indented", blanks_refused }, { "negated", sign_exchanged }, { "bare", sign_left_out },
        { "onward", byte_after_the_field } };
    for (size_t at = 0; at < sizeof faults / sizeof *faults; at++)
        if (strcmp(how, faults[at].name) == 0)
            return faults[at].read;
    return NULL;
}
