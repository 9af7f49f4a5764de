/* amounts.c: reads the fields on standard input and writes an amount over each, through include/sneupelaar.h; prints two lines a case. A
   case is the field's width, a blank, the amount in cents, a blank, the field's bytes, which may be any, and a line feed.
   tests/second.py prints the same. */
#include <stdio.h>
#include <stdlib.h>

#include "sneupelaar.h"
#include "streams.h"

enum { MOST_BYTES = 65536 };

static uint8_t text[MOST_BYTES + 2]; /* one byte shows that there are too many, one stays zero and ends the last number */

static void print_field(const uint8_t *field, size_t width)
{
    printf("[");
    fwrite(field, 1, width, stdout);
    printf("] ");
}

/* An accepted call has place 0 too. */
static void print_answer(uint64_t number, uint64_t place)
{
    if (number == 0 && place == 0)
        printf("accepted\n");
    else
        printf("refused %lu at %lu\n", (unsigned long)number, (unsigned long)place);
}

/* The amount that is read, which is 0 where reading is refused. */
static void show_read(const uint8_t *field, size_t width)
{
    sneupelaar_reading reading = sneupelaar_read(field, width);
    print_field(field, width);
    printf("read: %ld ", (long)reading.amount);
    print_answer(reading.number, reading.place);
}

/* The field as it is afterwards, so that what a refusal leaves alone shows. */
static void show_written(int64_t cents, uint8_t *field, size_t width)
{
    sneupelaar_answer answer = sneupelaar_write(cents, field, width);
    printf("%ld in %zu columns: ", (long)cents, width);
    print_field(field, width);
    print_answer(answer.number, answer.place);
}

/* Shows the case that begins here, and returns where the next one does. */
static uint8_t *show_case(uint8_t *from, const uint8_t *end)
{
    char *after_width, *after_cents;
    size_t width = strtoul((char *)from, &after_width, 10);
    int64_t cents = strtol(after_width, &after_cents, 10);
    uint8_t *field = (uint8_t *)after_cents + 1;
    if (field >= end || (size_t)(end - field) <= width || field[width] != '\n')
        fail("amounts: a case is not whole");
    show_read(field, width);
    show_written(cents, field, width);
    return field + width + 1;
}

int main(void)
{
    size_t bytes = read_input(text, MOST_BYTES + 1);
    if (bytes > MOST_BYTES)
        fail("amounts: more than 65,536 bytes");
    for (uint8_t *at = text; at < text + bytes;)
        at = show_case(at, text + bytes);
    finish();
}
