/* file.h: how an hour file is laid out (document 01, "The hour file"), and what finds its faults. What a ten-minute file has in common with
   it takes the form of file; ten_minutes.h has the other form. */
#ifndef FILE_H
#define FILE_H

#include "hand.h"

enum { BLOCK_BYTES = 512, MOST_BLOCKS = 26, BLOCK_WORDS = 128, BODY_WORD = 8 };
enum { HEAD_WORDS = BLOCK_WORDS - BODY_WORD, SUM_WORD = 7 };
enum { RECORD_WORDS = 12, BLOCK_RECORDS = 10, MOST_RECORDS = 250, MOST_MEMBERS = 32, MOST_ZONES = 4, MOST_AREAS = 8 };

/* words of the first block */
enum { OTHER_BLOCKS = 2, MEMBERS = 9, ZONES = 10, AREAS = 11, PRICES = 12, FIRST_AREA = 16, AREA_WORDS = 4 };

/* words of a record */
enum { KIND, MEMBER, AREA, SCHEDULED, ACTUAL, ADJUSTMENT, ANCILLARY, OBLIGATION, MAXIMUM, SCHEDULED_MULTIPLIER, HOUR_AHEAD_MULTIPLIER };
enum { GENERATOR = 1, REAL_TIME_LOAD, PROFILE_LOAD, IMPORT, EXPORT };

/* A form of file: word 0 of its first block and of every other, and how many blocks, records a block and words a record it has. */
typedef struct {
    uint32_t first_mark, other_mark;
    size_t most_blocks, block_records, record_words;
} layout;

static const layout hourly = { 1, 2, MOST_BLOCKS, BLOCK_RECORDS, RECORD_WORDS };

/* Word `at` of a part of a file: four bytes, the lowest first. */
static inline uint32_t word(const uint8_t *part, size_t at)
{
    const uint8_t *bytes = part + 4 * at;
    return bytes[0] | (uint32_t)bytes[1] << 8 | (uint32_t)bytes[2] << 16 | (uint32_t)bytes[3] << 24;
}

static inline const uint8_t *block_at(const uint8_t *file, size_t block)
{
    return file + BLOCK_BYTES * block;
}

/* Where a record stands in a file of that form, in words. */
static inline size_t record_word(const layout *form, size_t record)
{
    return BLOCK_WORDS * (1 + record / form->block_records) + BODY_WORD + form->record_words * (record % form->block_records);
}

/* How many records a file of that form holds whose blocks keep the layout. */
static inline size_t records_held(const layout *form, const uint8_t *file, size_t file_length)
{
    size_t blocks = file_length / BLOCK_BYTES;
    return blocks < 2 ? 0 : form->block_records * (blocks - 2) + word(block_at(file, blocks - 1), 2);
}

static inline const uint8_t *record_at(const uint8_t *file, size_t record)
{
    return file + 4 * record_word(&hourly, record);
}

static inline size_t records_in(const uint8_t *file, size_t file_length)
{
    return records_held(&hourly, file, file_length);
}

/* A word of a first body by its place in the block. */
static inline uint32_t head_word(const uint8_t *head, size_t at)
{
    return word(head, at - BODY_WORD);
}

/* The first word of a first body from `at` on that is not zero, or `to`. */
static inline size_t first_not_zero(const uint8_t *head, size_t at, size_t to)
{
    while (at < to && head_word(head, at) == 0)
        at++;
    return at;
}

/* Row 14, no schedule above the engine (document 02, A6), of a record that keeps row 5. Generators are judged and no other kind. */
static inline int above_maximum(const uint8_t *record)
{
    return word(record, KIND) == GENERATOR && word(record, SCHEDULED) > word(record, MAXIMUM);
}

/* Refusals 1 to 3 of a file of that form, in this order over the whole file. */
sneupelaar_answer examine_blocks(const layout *form, const uint8_t *file, size_t file_length);

/* The first of a head's counts of members, zones and areas that breaks its range, or the word behind them. */
size_t bad_count_word(const uint8_t *head);

/* Refusals 1 to 5 and 14, in this order over the whole file. */
sneupelaar_answer examine(const uint8_t *file, size_t file_length);

/* Refusals 4, 5 and 14 of a first body and of records that stand one behind the other. */
sneupelaar_answer examine_parts(const uint8_t *head, const uint8_t *records, size_t count);

#endif
