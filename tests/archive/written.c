/* written.c: writes an hour of the words on standard input through include/sneupelaar.h; prints the answer, and then every byte of the file
   buffer. Every byte holds 77 before, so that one which was written, or was not, shows.
     written [HEAD [FILE]]     how many of the words are the head, all others being records, and the file buffer's length in bytes; without
                               them a head's own length, and a buffer that is long enough for any hour
   tests/second.py prints the same. */
#include <stdio.h>
#include <string.h>

#include "sneupelaar.h"
#include "streams.h"

enum { MOST_WORDS = 4096, MOST_FILE = SNEUPELAAR_MOST_BYTES + 1024, LAID = 77 };

static const char usage[] = "written [HEAD [FILE]]: at most 14,336 bytes of file, and 4,096 words";
static uint32_t words[MOST_WORDS + 1]; /* a word more than may be, so that a longer input is seen */
static uint8_t file[MOST_FILE];

int main(int count, char **arguments)
{
    size_t head = number_named(count, arguments, 1, SNEUPELAAR_HEAD_WORDS, MOST_WORDS, usage);
    size_t room = number_named(count, arguments, 2, SNEUPELAAR_MOST_BYTES, MOST_FILE, usage);
    size_t given = read_input((uint8_t *)words, sizeof words) / sizeof *words;
    if (given > MOST_WORDS)
        fail(usage);
    if (head > given)
        head = given;
    memset(file, LAID, sizeof file);
    sneupelaar_written written = sneupelaar_write_hour(words, head, words + head, given - head, file, room);
    printf("answer %lu at %lu length %lu\n", (unsigned long)written.number, (unsigned long)written.place, (unsigned long)written.length);
    fwrite(file, 1, room, stdout);
    finish();
}
