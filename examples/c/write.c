/* Writes an hour file through the C library and settles what it wrote:   write FILE
 *
 * The hour is that of examples/printed.md. Prints the answer's number and place and the file's length, then the answer to settling it and
 * each member's charge in cents. Exits with 0 where the hour is accepted, 1 where it is refused, 2 where the file can't be written or the
 * result can't be printed. */
#include <stdint.h>
#include <stdio.h>

#include "sneupelaar.h"

enum { ACCEPTED = 0, REFUSED = 1, FAILED = 2 };

/* Words of the head, counted from its first, and of a record: docs/FORMAT.md has them all. Those that are not named here are 0. */
enum { HOUR, MEMBERS, ZONES, AREAS, PRICES };
enum { KIND, MEMBER, AREA, SCHEDULED, ACTUAL, MAXIMUM = 8, SCHEDULED_MULTIPLIER, HOUR_AHEAD_MULTIPLIER };
enum { GENERATOR = 1, LOAD };
enum { GROWERS = 2, RECORDS = 2 };

static const uint32_t head[SNEUPELAAR_HEAD_WORDS] = { [HOUR] = 7, [MEMBERS] = GROWERS, [ZONES] = 1, [AREAS] = 1, [PRICES] = 5000 };
static const uint32_t records[RECORDS][SNEUPELAAR_RECORD_WORDS] = {
    { [KIND] = GENERATOR, [SCHEDULED] = 1000, [ACTUAL] = 900, [MAXIMUM] = 2000,
      [SCHEDULED_MULTIPLIER] = 10000, [HOUR_AHEAD_MULTIPLIER] = 10000 },
    { [KIND] = LOAD, [MEMBER] = 1, [SCHEDULED] = 1000, [ACTUAL] = 870 },
};

/* Returns 0 and says why where the bytes don't get into the file. */
static int keep(const char *name, const uint8_t *file, size_t length)
{
    FILE *to = fopen(name, "wb");
    int kept = to && fwrite(file, 1, length, to) == length;
    if (to && fclose(to) != 0)
        kept = 0;
    if (!kept)
        perror(name);
    return kept;
}

static uint64_t settle(const uint8_t *file, size_t length)
{
    sneupelaar_line lines[GROWERS];
    int64_t charges[GROWERS], finals[GROWERS], shares[RECORDS], deviations[RECORDS];
    sneupelaar_settled settled = sneupelaar_settle(file, length, lines, GROWERS, charges, GROWERS, finals, GROWERS,
                                                   shares, RECORDS, deviations, RECORDS);
    printf("settled %llu at %llu\n", (unsigned long long)settled.number, (unsigned long long)settled.place);
    for (int member = 0; member < GROWERS && settled.number == 0; member++)
        printf("member %d charge %lld\n", member, (long long)charges[member]);
    return settled.number;
}

int main(int count, char **words)
{
    static uint8_t file[SNEUPELAAR_MOST_BYTES];
    if (count != 2) {
        fprintf(stderr, "usage: write FILE\n");
        return FAILED;
    }
    sneupelaar_written written = sneupelaar_write_hour(head, SNEUPELAAR_HEAD_WORDS, &records[0][0], RECORDS * SNEUPELAAR_RECORD_WORDS,
                                                       file, sizeof file);
    printf("answer %llu at %llu length %zu\n", (unsigned long long)written.number, (unsigned long long)written.place, written.length);
    if (written.number == 0 && !keep(words[1], file, written.length))
        return FAILED;
    uint64_t refused = written.number != 0 ? written.number : settle(file, written.length);
    if (fflush(stdout) != 0) {
        perror("standard output");
        return FAILED;
    }
    return refused == 0 ? ACCEPTED : REFUSED;
}
