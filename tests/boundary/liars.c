/* liars.c: callers that lie about a buffer, to see that the protected pages do catch it. */
#include <stdio.h>
#include <string.h>

#include "chance.h"
#include "guard.h"
#include "hours.h"
#include "trials.h"

/* The lie: which buffer is a place shorter than is stated, at its back, or is lent from the place before its first. */
static const char *lying;
static side at_side;

/* So many elements of a size, which may only be read where they are given; one fewer where the caller lies about this buffer. */
static void *lent(const char *name, size_t size, size_t stated, const void *elements)
{
    int lies = strcmp(lying, name) == 0;
    size_t length = size * (stated - lies), missing = lies && at_side == FRONT ? size : 0;
    guarded room = guard_room(length);
    uint8_t *at = guard_place(&room, length, lies ? at_side : FRONT);
    if (elements != NULL) {
        memcpy(at, (const uint8_t *)elements + missing, length);
        guard_only_read(&room);
    }
    return at - missing;
}

/* An accepted hour with records. */
static void make_accepted(hour_file *hour)
{
    sneupelaar_line lines[MOST_MEMBERS];
    int64_t charges[MOST_MEMBERS], finals[MOST_MEMBERS], shares[MOST_RECORDS], deviations[MOST_RECORDS];
    uint64_t number;
    do {
        make_hour(hour);
        number = hand_settle((const uint8_t *)hour->words, hour->bytes, lines, MOST_MEMBERS, charges, MOST_MEMBERS, finals, MOST_MEMBERS,
            shares, MOST_RECORDS, deviations, MOST_RECORDS).number;
    } while (number != 0 || hour->records == 0);
}

static void lie_settling(const hour_file *hour)
{
    size_t members = hour->members, records = hour->records;
    void *file = lent("file", 1, hour->bytes, hour->words), *lines = lent("lines", sizeof(sneupelaar_line), members, NULL);
    void *charges = lent("charges", 8, members, NULL), *finals = lent("finals", 8, members, NULL);
    void *shares = lent("shares", 8, records, NULL), *deviations = lent("deviations", 8, records, NULL);
    standing.function = "sneupelaar_settle";
    sneupelaar_settle(file, hour->bytes, lines, members, charges, members, finals, members, shares, records, deviations, records);
}

static void lie_ten_minutes(const hour_file *hour)
{
    const uint8_t *file = lent("intervals", 1, hour->bytes, hour->words);
    int64_t *charges = lent("charged", 8, hour->members, NULL);
    standing.function = "sneupelaar_settle_ten_minutes";
    sneupelaar_settle_ten_minutes(file, hour->bytes, charges, hour->members);
}

static void lie_explaining(const hour_file *hour)
{
    const uint8_t *file = lent("explained", 1, hour->bytes, hour->words);
    standing.function = "sneupelaar_explain";
    sneupelaar_explain(file, hour->bytes, 0);
}

/* With as many records as stand in the hour's first block of records. */
static void lie_writing_hour(const hour_file *hour)
{
    size_t words = RECORD_WORDS * (hour->records < BLOCK_RECORDS ? hour->records : BLOCK_RECORDS);
    const uint32_t *head = lent("head", 4, HEAD_WORDS, hour->words + BODY_WORD);
    const uint32_t *records = lent("records", 4, words, hour->words + BLOCK_WORDS + BODY_WORD);
    uint8_t *file = lent("hour", 1, 2 * BLOCK_BYTES, NULL);
    standing.function = "sneupelaar_write_hour";
    sneupelaar_write_hour(head, HEAD_WORDS, records, words, file, 2 * BLOCK_BYTES);
}

static void lie_field(void)
{
    static const char text[] = "   +12.34";
    size_t width = strlen(text);
    uint8_t *written = lent("written", 1, width, NULL);
    const uint8_t *read = lent("read", 1, width, text);
    standing.function = "sneupelaar_write";
    sneupelaar_write(1234, written, width);
    standing.function = "sneupelaar_read";
    sneupelaar_read(read, width);
}

void lie(const char *buffer, const char *where)
{
    static hour_file hour, ten_minute_hour;
    lying = buffer;
    at_side = strcmp(where, "front") == 0 ? FRONT : BACK;
    chance_start(standing.seed, 0);
    make_accepted(&hour);
    lie_settling(&hour);
    lie_explaining(&hour);
    lie_writing_hour(&hour);
    lie_field();
    make_ten_minute_hour(&ten_minute_hour);
    lie_ten_minutes(&ten_minute_hour);
    printf("not caught: %s at the %s\n", buffer, where);
}
