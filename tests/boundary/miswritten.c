/* miswritten.c: writing an hour with a fault put in, to see that the comparison finds it. */
#include <stddef.h>
#include <string.h>

#include "hand/file.h"
#include "trials.h"

#define ARGUMENTS \
    const uint32_t *head, size_t head_length, const uint32_t *records, size_t records_length, uint8_t *file, size_t file_length
#define PASSED head, head_length, records, records_length, file, file_length

static void put_word(uint8_t *block, size_t at, uint32_t value)
{
    memcpy(block + 4 * at, &value, sizeof value);
}

void change_word(uint8_t *block, size_t at, uint32_t value)
{
    put_word(block, SUM_WORD, word(block, SUM_WORD) + word(block, at) - value);
    put_word(block, at, value);
}

static sneupelaar_written ten_in_the_last(ARGUMENTS)
{
    sneupelaar_written written = sneupelaar_write_hour(PASSED);
    if (written.length > BLOCK_BYTES)
        change_word(file + written.length - BLOCK_BYTES, 2, BLOCK_RECORDS);
    return written;
}

/* As though word 7 were no part of the sum that it makes zero. */
static sneupelaar_written seal_left_out(ARGUMENTS)
{
    sneupelaar_written written = sneupelaar_write_hour(PASSED);
    if (written.number == 0)
        put_word(file + written.length - BLOCK_BYTES, SUM_WORD, 0);
    return written;
}

static sneupelaar_written one_block_too_many(ARGUMENTS)
{
    sneupelaar_written written = sneupelaar_write_hour(PASSED);
    if (written.number == 0)
        change_word(file, OTHER_BLOCKS, word(file, OTHER_BLOCKS) + 1);
    return written;
}

static sneupelaar_written block_for_no_records(ARGUMENTS)
{
    sneupelaar_written written = sneupelaar_write_hour(PASSED);
    if (written.length != BLOCK_BYTES || file_length < 2 * BLOCK_BYTES)
        return written;
    memset(file + BLOCK_BYTES, 0, BLOCK_BYTES);
    change_word(file, OTHER_BLOCKS, 1);
    change_word(file + BLOCK_BYTES, 0, 2);
    change_word(file + BLOCK_BYTES, 1, 1);
    written.length += BLOCK_BYTES;
    return written;
}

static sneupelaar_written words_from_0(ARGUMENTS)
{
    sneupelaar_written written = sneupelaar_write_hour(PASSED);
    written.place -= written.number == 4 ? BODY_WORD : 0;
    return written;
}

/* Looked for from the end, so that the last such record is found. */
static sneupelaar_written last_record(ARGUMENTS)
{
    sneupelaar_written written = sneupelaar_write_hour(PASSED), tail = written;
    while (tail.number == 5) {
        size_t past = written.place + 1;
        tail = sneupelaar_write_hour(head, head_length, records + RECORD_WORDS * past, records_length - RECORD_WORDS * past, file, 0);
        written.place += tail.number == 5 ? 1 + tail.place : 0;
    }
    return written;
}

/* An import whose word 4 isn't zero, written as though it were. */
static sneupelaar_written import_let_through(ARGUMENTS)
{
    static uint32_t without[RECORD_WORDS * MOST_RECORDS];
    sneupelaar_written written = sneupelaar_write_hour(PASSED);
    if (written.number != 5 || records[RECORD_WORDS * written.place + KIND] != IMPORT)
        return written;
    memcpy(without, records, 4 * records_length);
    without[RECORD_WORDS * written.place + ACTUAL] = 0;
    return sneupelaar_write_hour(head, head_length, without, records_length, file, file_length);
}

static const uint8_t *record_of(const uint32_t *records, size_t at)
{
    return (const uint8_t *)(records + RECORD_WORDS * at);
}

/* Generators scheduled above their maximum, written as though they were scheduled at it. */
static sneupelaar_written above_let_through(ARGUMENTS)
{
    static uint32_t lowered[RECORD_WORDS * MOST_RECORDS];
    sneupelaar_written written = sneupelaar_write_hour(PASSED);
    if (written.number != 14)
        return written;
    memcpy(lowered, records, 4 * records_length);
    for (size_t at = 0; at < records_length / RECORD_WORDS; at++)
        if (above_maximum(record_of(records, at)))
            lowered[RECORD_WORDS * at + SCHEDULED] = records[RECORD_WORDS * at + MAXIMUM];
    return sneupelaar_write_hour(head, head_length, lowered, records_length, file, file_length);
}

static sneupelaar_written equal_refused(ARGUMENTS)
{
    sneupelaar_written written = sneupelaar_write_hour(PASSED);
    for (size_t at = 0; written.number == 0 && at < records_length / RECORD_WORDS; at++) {
        const uint32_t *record = records + RECORD_WORDS * at;
        if (record[KIND] == GENERATOR && record[SCHEDULED] == record[MAXIMUM])
            written = (sneupelaar_written){ 14, at, 0 };
    }
    return written;
}

/* Rows 5 and 14 looked for at one record after the other, so that 14 is answered where row 5 is broken behind it. */
static sneupelaar_written five_with_fourteen(ARGUMENTS)
{
    sneupelaar_written written = sneupelaar_write_hour(PASSED);
    for (size_t at = 0; written.number == 5 && at < written.place; at++)
        if (above_maximum(record_of(records, at)))
            written = (sneupelaar_written){ 14, at, 0 };
    return written;
}

/* Row 14 looked for after row 11. */
static sneupelaar_written fourteen_last(ARGUMENTS)
{
    sneupelaar_written written = sneupelaar_write_hour(PASSED);
    size_t others = (records_length / RECORD_WORDS + BLOCK_RECORDS - 1) / BLOCK_RECORDS;
    if (written.number == 14 && file_length < BLOCK_BYTES * (1 + others))
        return (sneupelaar_written){ 11, 0, 0 };
    return written;
}

static sneupelaar_written length_on_refusal(ARGUMENTS)
{
    sneupelaar_written written = sneupelaar_write_hour(PASSED);
    written.length += written.number == 11 ? BLOCK_BYTES : 0;
    return written;
}

static sneupelaar_written byte_past_the_last_block(ARGUMENTS)
{
    sneupelaar_written written = sneupelaar_write_hour(PASSED);
    if (written.number == 0 && written.length < file_length)
        file[written.length] ^= 1;
    return written;
}

/* A refusal changes nothing: here it does. */
static sneupelaar_written head_before_refusal(ARGUMENTS)
{
    sneupelaar_written written = sneupelaar_write_hour(PASSED);
    if (written.number == 5 && file_length >= BLOCK_BYTES)
        memcpy(file + 4 * BODY_WORD, head, 4 * HEAD_WORDS);
    return written;
}

/* Row 11 looked for before row 5. */
static sneupelaar_written room_first(ARGUMENTS)
{
    sneupelaar_written written = sneupelaar_write_hour(PASSED);
    if (written.number == 5 && file_length < 2 * BLOCK_BYTES)
        return (sneupelaar_written){ 11, 0, 0 };
    return written;
}

/* A word read past the records, where the caller has none: caught by the pages, as the buffer lies. */
static sneupelaar_written word_past_the_records(ARGUMENTS)
{
    sneupelaar_written written = sneupelaar_write_hour(PASSED);
    written.place += records_length != 0 && ((const volatile uint32_t *)records)[records_length] == 0 ? 1 : 0;
    return written;
}

write_hour_function *miswritten(const char *how)
{
    static const struct {
        const char *name;
        write_hour_function *write_hour;
    } faults[] = { { "ten", ten_in_the_last }, { "seal", seal_left_out }, { "others", one_block_too_many },
        { "empty", block_for_no_records }, { "word", words_from_0 }, { "record", last_record }, { "length", length_on_refusal },
        { "past", byte_past_the_last_block }, { "early", head_before_refusal }, { "room", room_first }, { "over", word_past_the_records },
        { "import", import_let_through }, { "engine", above_let_through }, { "limit", equal_refused }, { "together", five_with_fourteen },
        { "space", fourteen_last } };
    for (size_t at = 0; at < sizeof faults / sizeof *faults; at++)
        if (strcmp(how, faults[at].name) == 0)
            return faults[at].write_hour;
    return NULL;
}
