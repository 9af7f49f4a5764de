/* hour.c: see hour.h. */
#include "hour.h"

#include <stdio.h>

int read_file(const char *name, uint8_t *file, size_t *length)
{
    FILE *from = name ? fopen(name, "rb") : stdin;
    if (!from) {
        perror(name);
        return 0;
    }
    *length = fread(file, 1, ROOM, from);
    int whole = !ferror(from);
    if (!whole)
        perror(name ? name : "standard input");
    if (name)
        fclose(from);
    return whole;
}

/* They are word 9 of the first block, lowest byte first: the second word of that block's body. */
size_t members(const uint8_t *file, size_t length)
{
    sneupelaar_part head = sneupelaar_body(file, length, 0);
    const uint8_t *word = file + head.from + 4;
    return word[0] + ((size_t)word[1] << 8) + ((size_t)word[2] << 16) + ((size_t)word[3] << 24);
}

void print_cents(const char *name, int64_t cents)
{
    uint8_t field[14];
    sneupelaar_answer written = sneupelaar_write(cents, field, sizeof field);
    if (written.number == 0)
        printf(" %s %.*s", name, (int)sizeof field, (const char *)field);
    else
        printf(" %s refused %llu", name, (unsigned long long)written.number);
}
