/* charged.c: settles the ten-minute hour on standard input through include/sneupelaar.h, and prints the answer and every charge. Each place
   holds 77 before, so that one which was written, or was not, shows.
     charged [CHARGES]     how many charges there is room for; without it the room is enough for any hour
   tests/second.py prints the same. */
#include <stdio.h>

#include "sneupelaar.h"
#include "streams.h"

enum { CHARGES = 40, LAID = 77 };

static const char usage[] = "charged [CHARGES]: at most 40";
static uint8_t file[SNEUPELAAR_MOST_BYTES + 1]; /* room for an hourly file, and a byte more, so that a longer input is seen */
static int64_t charges[CHARGES];

int main(int count, char **words)
{
    size_t charged = number_named(count, words, 1, SNEUPELAAR_MOST_MEMBERS, CHARGES, usage);
    size_t bytes = read_input(file, sizeof file);
    for (size_t at = 0; at < CHARGES; at++)
        charges[at] = LAID;
    sneupelaar_answer answer = sneupelaar_settle_ten_minutes(file, bytes, charges, charged);
    printf("answer %lu at %lu\ncharges", (unsigned long)answer.number, (unsigned long)answer.place);
    for (size_t at = 0; at < charged; at++)
        printf(" %ld", (long)charges[at]);
    printf("\n");
    finish();
}
