/* explained.c: explains charges of the hour on standard input through include/sneupelaar.h, and prints a line for each member that it is
   asked about: the answer, its grains under each head, and the head that decided.
     explained [MEMBER..]     the members' numbers; without them every one that an hour can have, the two numbers after them, and some
                              whose last bytes are a member's
   tests/second.py prints the same. */
#include <stdio.h>

#include "sneupelaar.h"
#include "streams.h"

static const char usage[] = "explained [MEMBER..]: numbers of 32 bits";
static const uint32_t no_members[] = { SNEUPELAAR_MOST_MEMBERS, SNEUPELAAR_MOST_MEMBERS + 1, 255, 256, 0x80000000, 0xFFFFFFFF };
static uint8_t file[SNEUPELAAR_MOST_BYTES + 1]; /* a byte more than the longest, so that a longer input is seen */
static size_t bytes;

static void print_explained(uint32_t member)
{
    sneupelaar_explained explained = sneupelaar_explain(file, bytes, member);
    printf("member %u answer %lu at %lu heads", member, (unsigned long)explained.number, (unsigned long)explained.place);
    for (size_t head = 0; head < SNEUPELAAR_HEADS; head++)
        printf(" %ld", (long)explained.heads[head]);
    printf(" decided %lu\n", (unsigned long)explained.decided);
}

static void print_all(void)
{
    for (uint32_t member = 0; member < SNEUPELAAR_MOST_MEMBERS; member++)
        print_explained(member);
    for (size_t at = 0; at < sizeof no_members / sizeof *no_members; at++)
        print_explained(no_members[at]);
}

int main(int count, char **words)
{
    bytes = read_input(file, sizeof file);
    if (count == 1)
        print_all();
    for (int at = 1; at < count; at++)
        print_explained((uint32_t)number_named(count, words, at, 0, 0xFFFFFFFF, usage));
    finish();
}
