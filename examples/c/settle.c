/* Settles an hour through the C library:   settle [FILE]   without a file's name it reads standard input.
 *
 * Prints the answer's number and place, then for an accepted hour a line for each member: its records, its exact amount in grains, its
 * charge and its final amount. Exits with 0 where the hour is accepted, 1 where it is refused, 2 where it can't be read or the result
 * can't be printed. */
#include <stdint.h>
#include <stdio.h>

#include "hour.h"
#include "sneupelaar.h"

enum { ACCEPTED = 0, REFUSED = 1, FAILED = 2 };

static void print_member(size_t member, sneupelaar_line line, int64_t charge, int64_t final)
{
    printf("member %zu records %u grains %lld", member, (unsigned)line.records, (long long)line.amount);
    print_cents("charge", charge);
    print_cents("final", final);
    printf("\n");
}

int main(int count, char **words)
{
    static uint8_t file[ROOM];
    static sneupelaar_line lines[SNEUPELAAR_MOST_MEMBERS];
    static int64_t charges[SNEUPELAAR_MOST_MEMBERS], finals[SNEUPELAAR_MOST_MEMBERS];
    static int64_t shares[SNEUPELAAR_MOST_RECORDS], deviations[SNEUPELAAR_MOST_RECORDS];
    size_t length;

    if (count > 2) {
        fprintf(stderr, "usage: settle [FILE]\n");
        return FAILED;
    }
    if (!read_file(count == 2 ? words[1] : NULL, file, &length))
        return FAILED;

    sneupelaar_settled settled =
        sneupelaar_settle(file, length, lines, SNEUPELAAR_MOST_MEMBERS, charges, SNEUPELAAR_MOST_MEMBERS, finals,
                          SNEUPELAAR_MOST_MEMBERS, shares, SNEUPELAAR_MOST_RECORDS, deviations, SNEUPELAAR_MOST_RECORDS);

    printf("answer %llu at %llu\n", (unsigned long long)settled.number, (unsigned long long)settled.place);
    if (settled.number == 0)
        for (size_t m = 0; m < members(file, length); m++)
            print_member(m, lines[m], charges[m], finals[m]);
    if (fflush(stdout) != 0) {
        perror("standard output");
        return FAILED;
    }
    return settled.number == 0 ? ACCEPTED : REFUSED;
}
