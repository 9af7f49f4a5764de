/* settled.c: settles the hour on standard input through include/sneupelaar.h, and prints the answer, the UFE figures, every place of every
   buffer, and where the body of each block stands. Every place holds 77 before, so that one which was written, or was not, shows.
     settled [LINES [CHARGES [FINALS [SHARES [DEVIATIONS]]]]]     the buffers' lengths; without them the buffers are long enough for any hour
   tests/second.py prints the same. */
#include <stdio.h>

#include "sneupelaar.h"
#include "streams.h"

enum { LINES = 40, RECORDS = 260, LAID = 77 };

static const char usage[] = "settled [LINES [CHARGES [FINALS [SHARES [DEVIATIONS]]]]]: at most 40, 40, 40, 260 and 260";
static uint8_t file[SNEUPELAAR_MOST_BYTES + 1]; /* a byte more than the longest, so that a longer input is seen */
static sneupelaar_line lines[LINES];
static int64_t charges[LINES], finals[LINES], shares[RECORDS], deviations[RECORDS];

static void lay(void)
{
    for (size_t at = 0; at < LINES; at++) {
        lines[at] = (sneupelaar_line){ LAID, LAID };
        charges[at] = finals[at] = LAID;
    }
    for (size_t at = 0; at < RECORDS; at++)
        shares[at] = deviations[at] = LAID;
}

static void print_numbers(const char *name, const int64_t *numbers, size_t count)
{
    printf("%s", name);
    for (size_t at = 0; at < count; at++)
        printf(" %ld", (long)numbers[at]);
    printf("\n");
}

static void print_lines(size_t count)
{
    printf("lines");
    for (size_t at = 0; at < count; at++)
        printf(" %ld:%u", (long)lines[at].amount, lines[at].records);
    printf("\n");
}

static void print_body(size_t bytes, size_t block)
{
    sneupelaar_part part = sneupelaar_body(file, bytes, block);
    printf(" %zu:%zu", part.from, part.length);
}

/* Of every block that a file can have, of the first that none has, and of two so far that their bytes' places go round 2^64. */
static void print_bodies(size_t bytes)
{
    printf("bodies");
    for (size_t block = 0; block <= SNEUPELAAR_MOST_BYTES / 512; block++)
        print_body(bytes, block);
    print_body(bytes, (size_t)1 << 55);
    print_body(bytes, SIZE_MAX);
    printf("\n");
}

int main(int count, char **words)
{
    size_t lined = number_named(count, words, 1, SNEUPELAAR_MOST_MEMBERS, LINES, usage);
    size_t charged = number_named(count, words, 2, SNEUPELAAR_MOST_MEMBERS, LINES, usage);
    size_t finished = number_named(count, words, 3, SNEUPELAAR_MOST_MEMBERS, LINES, usage);
    size_t shared = number_named(count, words, 4, SNEUPELAAR_MOST_RECORDS, RECORDS, usage);
    size_t deviated = number_named(count, words, 5, SNEUPELAAR_MOST_RECORDS, RECORDS, usage);
    size_t bytes = read_input(file, sizeof file);
    lay();
    sneupelaar_settled settled =
        sneupelaar_settle(file, bytes, lines, lined, charges, charged, finals, finished, shares, shared, deviations, deviated);
    printf("answer %lu at %lu\n", (unsigned long)settled.number, (unsigned long)settled.place);
    print_numbers("ufe", settled.ufe, SNEUPELAAR_AREAS);
    print_numbers("charges", charges, charged);
    print_numbers("finals", finals, finished);
    print_numbers("shares", shares, shared);
    print_numbers("deviations", deviations, deviated);
    print_lines(lined);
    print_bodies(bytes);
    finish();
}
