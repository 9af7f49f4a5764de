/* bench.c: what the bench counts.
     bench FOLDER WHAT WHO ROUNDS   WHAT: full (writes that hour of the folder, taken apart, once a round), write, read (1,000 amounts a
                                    round), explained- before an hour of the folder (explains a member of it once a round), or another
                                    hour of the folder, which is settled once a round, as a ten-minute file where its name begins with
                                    ten-minutes-; WHO: rattle (the archive) or hand. Prints a sum of what was answered, which both have
                                    alike
     bench FOLDER WHAT WHO stack    prints how many bytes of stack a round takes */
#include <stdio.h>
#include <stdlib.h>
#include <string.h>

#include "hand.h"
#include "paint.h"

enum { AMOUNTS = 1000, WIDTH = 14, MEMBER = 7 };
static const char explained[] = "explained-", ten_minutes[] = "ten-minutes-";

static uint8_t file[SNEUPELAAR_MOST_BYTES];
static size_t file_length;
static uint32_t head[SNEUPELAAR_HEAD_WORDS], records[SNEUPELAAR_RECORD_WORDS * SNEUPELAAR_MOST_RECORDS];
static size_t records_length;
static uint8_t written_file[SNEUPELAAR_MOST_BYTES];
static sneupelaar_line lines[SNEUPELAAR_MOST_MEMBERS];
static int64_t charges[SNEUPELAAR_MOST_MEMBERS], finals[SNEUPELAAR_MOST_MEMBERS];
static int64_t shares[SNEUPELAAR_MOST_RECORDS], deviations[SNEUPELAAR_MOST_RECORDS];
static int64_t cents[AMOUNTS];
static uint8_t texts[AMOUNTS][WIDTH], field[WIDTH];
static uint64_t sum;

/* The whole range, every number of digits alike, both signs. Texts are made for reading only: writing is counted. */
static void make_amounts(int with_texts)
{
    uint64_t state = 88172645463325252u, most = 1;
    for (size_t at = 0; at < AMOUNTS; at++) {
        most = at % 12 == 0 ? 10 : 10 * most;
        state ^= state << 13;
        state ^= state >> 7;
        state ^= state << 17;
        cents[at] = (int64_t)(state % most) * (at % 2 == 0 ? 1 : -1);
        if (with_texts)
            hand_write(cents[at], texts[at], WIDTH);
    }
}

static void read_hour(const char *folder, const char *name)
{
    char path[4096];
    snprintf(path, sizeof path, "%s/%s.hour", folder, name);
    FILE *from = fopen(path, "rb");
    if (from == NULL)
        return;
    file_length = fread(file, 1, sizeof file, from);
    fclose(from);
}

/* Head and records of the hour. On x86-64 a word's bytes stand in memory as they do in the file. */
static void take_apart(void)
{
    enum { BLOCK = 512, FRONT = 32, BODY = BLOCK - FRONT };
    for (size_t at = 0; at < file_length; at += BLOCK) {
        uint32_t *to = at == 0 ? head : records + (at / BLOCK - 1) * (BODY / sizeof *records);
        memcpy(to, file + at + FRONT, BODY);
    }
    records_length = sizeof records / sizeof *records; /* the hour is full */
}

/* Every function of the archive and its twin by hand is called from the same text. */
#define ROUNDS_OF(who, settle, settle_ten_minutes, explain, write_hour, write, read)                                              \
    static void settle_##who(void)                                                                                                \
    {                                                                                                                             \
        sneupelaar_settled settled = settle(file, file_length, lines, SNEUPELAAR_MOST_MEMBERS, charges, SNEUPELAAR_MOST_MEMBERS,  \
            finals, SNEUPELAAR_MOST_MEMBERS, shares, SNEUPELAAR_MOST_RECORDS, deviations, SNEUPELAAR_MOST_RECORDS);               \
        sum += 1000 * settled.number + settled.place;                                                                             \
        sum += (uint64_t)(charges[0] + finals[1] + shares[49] + deviations[59] + lines[7].amount);                                \
    }                                                                                                                             \
    static void settle_ten_minutes_##who(void)                                                                                    \
    {                                                                                                                             \
        sneupelaar_answer answer = settle_ten_minutes(file, file_length, charges, SNEUPELAAR_MOST_MEMBERS);                       \
        sum += 1000 * answer.number + answer.place;                                                                               \
        for (size_t member = 0; member < SNEUPELAAR_MOST_MEMBERS; member++)                                                       \
            sum += (uint64_t)charges[member] << member;                                                                           \
    }                                                                                                                             \
    static void explain_##who(void)                                                                                               \
    {                                                                                                                             \
        sneupelaar_explained because = explain(file, file_length, MEMBER);                                                        \
        sum += 1000 * because.number + because.place + 10 * because.decided;                                                      \
        for (size_t head = 0; head < SNEUPELAAR_HEADS; head++)                                                                    \
            sum += (uint64_t)because.heads[head] << head;                                                                         \
    }                                                                                                                             \
    static void write_hour_##who(void)                                                                                            \
    {                                                                                                                             \
        sneupelaar_written written =                                                                                              \
            write_hour(head, SNEUPELAAR_HEAD_WORDS, records, records_length, written_file, SNEUPELAAR_MOST_BYTES);                \
        sum += 1000 * written.number + written.length + written_file[28] + written_file[SNEUPELAAR_MOST_BYTES - 484];             \
    }                                                                                                                             \
    static void write_##who(void)                                                                                                 \
    {                                                                                                                             \
        for (size_t at = 0; at < AMOUNTS; at++)                                                                                   \
            sum += write(cents[at], field, WIDTH).number + field[at % WIDTH];                                                     \
    }                                                                                                                             \
    static void read_##who(void)                                                                                                  \
    {                                                                                                                             \
        for (size_t at = 0; at < AMOUNTS; at++)                                                                                   \
            sum += (uint64_t)read(texts[at], WIDTH).amount;                                                                       \
    }

ROUNDS_OF(rattle, sneupelaar_settle, sneupelaar_settle_ten_minutes, sneupelaar_explain, sneupelaar_write_hour, sneupelaar_write,
    sneupelaar_read)
ROUNDS_OF(hand, hand_settle, hand_settle_ten_minutes, hand_explain, hand_write_hour, hand_write, hand_read)

typedef void round_of(void);

static int begins(const char *what, const char *with)
{
    size_t length = strlen(with);
    return strlen(what) > length && memcmp(what, with, length) == 0;
}

/* The hour that an explanation is about; NULL where nothing is to be explained. */
static const char *hour_explained(const char *what)
{
    return begins(what, explained) ? what + strlen(explained) : NULL;
}

static round_of *chosen(const char *what, int rattle)
{
    if (hour_explained(what) != NULL)
        return rattle ? explain_rattle : explain_hand;
    if (begins(what, ten_minutes))
        return rattle ? settle_ten_minutes_rattle : settle_ten_minutes_hand;
    if (strcmp(what, "full") == 0)
        return rattle ? write_hour_rattle : write_hour_hand;
    if (strcmp(what, "write") == 0)
        return rattle ? write_rattle : write_hand;
    if (strcmp(what, "read") == 0)
        return rattle ? read_rattle : read_hand;
    return rattle ? settle_rattle : settle_hand;
}

int main(int count, char **words)
{
    if (count != 5) {
        fprintf(stderr, "bench FOLDER WHAT WHO ROUNDS|stack\n");
        return 2;
    }
    make_amounts(strcmp(words[2], "read") == 0);
    read_hour(words[1], hour_explained(words[2]) != NULL ? hour_explained(words[2]) : words[2]);
    take_apart();
    round_of *round = chosen(words[2], strcmp(words[3], "rattle") == 0);
    if (strcmp(words[4], "stack") == 0) {
        printf("%lu\n", (unsigned long)stack_depth(round));
        return 0;
    }
    for (unsigned long left = strtoul(words[4], NULL, 10); left > 0; left--)
        round();
    printf("%lu\n", (unsigned long)sum);
    return 0;
}
