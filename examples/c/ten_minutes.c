/* Settles a ten-minute file through the C library:   ten_minutes [FILE]   without a file's name it reads standard input.
 *
 * Prints the answer's number and place, then for an accepted hour a line for each member with its charge. Exits with 0 where the hour is
 * accepted, 1 where it is refused, 2 where it can't be read or the result can't be printed. */
#include <stdint.h>
#include <stdio.h>

#include "hour.h"
#include "sneupelaar.h"

enum { ACCEPTED = 0, REFUSED = 1, FAILED = 2 };

int main(int count, char **words)
{
    static uint8_t file[ROOM];
    static int64_t charges[SNEUPELAAR_MOST_MEMBERS];
    size_t length;

    if (count > 2) {
        fprintf(stderr, "usage: ten_minutes [FILE]\n");
        return FAILED;
    }
    if (!read_file(count == 2 ? words[1] : NULL, file, &length))
        return FAILED;

    sneupelaar_answer answer = sneupelaar_settle_ten_minutes(file, length, charges, SNEUPELAAR_MOST_MEMBERS);

    printf("answer %llu at %llu\n", (unsigned long long)answer.number, (unsigned long long)answer.place);
    for (size_t member = 0; answer.number == 0 && member < members(file, length); member++) {
        printf("member %zu", member);
        print_cents("charge", charges[member]);
        printf("\n");
    }
    if (fflush(stdout) != 0) {
        perror("standard output");
        return FAILED;
    }
    return answer.number == 0 ? ACCEPTED : REFUSED;
}
