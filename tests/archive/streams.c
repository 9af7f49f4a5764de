/* streams.c: see streams.h. */
#include "streams.h"

#include <stdio.h>
#include <stdlib.h>

enum { DONE = 0, FAILED = 2 };

void fail(const char *why)
{
    fprintf(stderr, "%s\n", why);
    exit(FAILED);
}

size_t number_named(int count, char **words, int at, size_t usual, size_t most, const char *usage)
{
    if (at >= count)
        return usual;
    char *end;
    size_t named = strtoul(words[at], &end, 10);
    if (end == words[at] || *end != '\0' || named > most)
        fail(usage);
    return named;
}

size_t read_input(uint8_t *room, size_t length)
{
    size_t bytes = fread(room, 1, length, stdin);
    if (ferror(stdin))
        fail("standard input cannot be read");
    return bytes;
}

void finish(void)
{
    if (fflush(stdout) != 0 || ferror(stdout))
        fail("standard output cannot be written");
    exit(DONE);
}
