/* Explains a member's charge through the C library:   explain MEMBER [FILE]   without a file's name it reads standard input.
 *
 * Prints the answer's number and place, then for a member of an accepted hour its exact amount in grains under each head, their sum, and
 * the head that decided. Exits with 0 where the hour is accepted and has the member, 1 where it is refused, 2 where MEMBER is no number,
 * the hour can't be read or the result can't be printed. */
#include <stdint.h>
#include <stdio.h>
#include <stdlib.h>

#include "hour.h"
#include "sneupelaar.h"

enum { ACCEPTED = 0, REFUSED = 1, FAILED = 2 };

/* The heads in their order; `decided` is 0 for none and counts from 1 behind it. */
static const char *const names[] = { "none", "generation", "load", "import", "export", "share" };

/* Returns 0 where the word is no number of 32 bits. */
static int read_member(const char *word, uint32_t *member)
{
    char *end;
    unsigned long number = strtoul(word, &end, 10);
    *member = (uint32_t)number;
    return *word >= '0' && *word <= '9' && *end == '\0' && number == *member;
}

static void print_heads(const sneupelaar_explained *explained)
{
    int64_t amount = 0;
    for (int head = 0; head < SNEUPELAAR_HEADS; head++) {
        printf("%s %lld\n", names[1 + head], (long long)explained->heads[head]);
        amount += explained->heads[head];
    }
    printf("amount %lld\ndecided %s\n", (long long)amount, names[explained->decided]);
}

int main(int count, char **words)
{
    static uint8_t file[ROOM];
    size_t length;
    uint32_t member;

    if (count < 2 || count > 3 || !read_member(words[1], &member)) {
        fprintf(stderr, "usage: explain MEMBER [FILE]\n");
        return FAILED;
    }
    if (!read_file(count == 3 ? words[2] : NULL, file, &length))
        return FAILED;

    sneupelaar_explained explained = sneupelaar_explain(file, length, member);

    printf("answer %llu at %llu\n", (unsigned long long)explained.number, (unsigned long long)explained.place);
    if (explained.number == 0)
        print_heads(&explained);
    if (fflush(stdout) != 0) {
        perror("standard output");
        return FAILED;
    }
    return explained.number == 0 ? ACCEPTED : REFUSED;
}
