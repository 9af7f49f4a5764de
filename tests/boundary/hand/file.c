/* file.c: the block reader, and refusals 1 to 5 and 14; 1 to 3 of either form of file. */
#include "file.h"

/* The words that keep a range, in one comparison: moved up by `up` modulo 2^32 they are at most `most`. */
typedef struct {
    uint32_t up, most;
} range;

#define RANGE(low, high) { -(uint32_t)(low), (uint32_t)(high) - (uint32_t)(low) }
#define ZERO RANGE(0, 0)
#define ENERGY RANGE(0, 100000)
#define CHANGE RANGE(-100000, 100000)
#define MULTIPLIER RANGE(1, 20000)

static const range price = RANGE(-1000000, 1000000);
static const range tie = RANGE(0, 10000000);

/* Words 3 to 11 of a record, by its kind. */
static const range record_ranges[][RECORD_WORDS - SCHEDULED] = {
    [GENERATOR] = { ENERGY, ENERGY, CHANGE, ENERGY, ENERGY, ENERGY, MULTIPLIER, MULTIPLIER, ZERO },
    [REAL_TIME_LOAD] = { ENERGY, ENERGY, CHANGE, ENERGY, ENERGY, ZERO, ZERO, ZERO, ZERO },
    [PROFILE_LOAD] = { ENERGY, ENERGY, CHANGE, ENERGY, ENERGY, ZERO, ZERO, ZERO, ZERO },
    [IMPORT] = { ENERGY, ZERO, CHANGE, ENERGY, ZERO, ZERO, MULTIPLIER, MULTIPLIER, ZERO },
    [EXPORT] = { ENERGY, ENERGY, CHANGE, ZERO, ZERO, ZERO, ZERO, ZERO, ZERO },
};

static int keeps(uint32_t value, range within)
{
    return value + within.up <= within.most;
}

static int length_bad(const layout *form, size_t file_length)
{
    return file_length == 0 || file_length % BLOCK_BYTES != 0 || file_length > form->most_blocks * BLOCK_BYTES;
}

sneupelaar_part hand_body(const uint8_t *file, size_t file_length, size_t block)
{
    (void)file;
    if (length_bad(&hourly, file_length) || block >= file_length / BLOCK_BYTES)
        return (sneupelaar_part){ 0, 0 };
    return (sneupelaar_part){ BLOCK_BYTES * block + 4 * BODY_WORD, BLOCK_BYTES - 4 * BODY_WORD };
}

static int sum_bad(const uint8_t *block)
{
    uint32_t sum = 0;
    for (size_t at = 0; at < BLOCK_WORDS; at++)
        sum += word(block, at);
    return sum != 0;
}

static int zeros(const uint8_t *block, size_t from, size_t to)
{
    for (size_t at = from; at < to; at++)
        if (word(block, at) != 0)
            return 0;
    return 1;
}

/* Row 3 of one block of so many. */
static int block_bad(const layout *form, const uint8_t *block, size_t position, size_t blocks)
{
    uint32_t third = word(block, 2);
    if (word(block, 1) != position || !zeros(block, 3, 7))
        return 1;
    if (position == 0)
        return word(block, 0) != form->first_mark || third != blocks - 1;
    if (word(block, 0) != form->other_mark || third == 0 || third > form->block_records
        || (third < form->block_records && position != blocks - 1))
        return 1;
    return !zeros(block, BODY_WORD + form->record_words * third, BLOCK_WORDS);
}

sneupelaar_answer examine_blocks(const layout *form, const uint8_t *file, size_t file_length)
{
    if (length_bad(form, file_length))
        return (sneupelaar_answer){ 1, 0 };
    size_t blocks = file_length / BLOCK_BYTES;
    for (size_t block = 0; block < blocks; block++)
        if (sum_bad(block_at(file, block)))
            return (sneupelaar_answer){ 2, block };
    for (size_t block = 0; block < blocks; block++)
        if (block_bad(form, block_at(file, block), block, blocks))
            return (sneupelaar_answer){ 3, block };
    return (sneupelaar_answer){ 0, 0 };
}

size_t bad_count_word(const uint8_t *head)
{
    if (!keeps(head_word(head, MEMBERS), (range)RANGE(1, MOST_MEMBERS)))
        return MEMBERS;
    if (!keeps(head_word(head, ZONES), (range)RANGE(1, MOST_ZONES)))
        return ZONES;
    return keeps(head_word(head, AREAS), (range)RANGE(1, MOST_AREAS)) ? AREAS + 1 : AREAS;
}

/* The first word of an area that breaks its range, or the next area's first. */
static size_t bad_area_word(const uint8_t *head, size_t at, uint32_t zones)
{
    if (head_word(head, at) >= zones)
        return at;
    if (!keeps(head_word(head, at + 1), tie))
        return at + 1;
    if (!keeps(head_word(head, at + 2), tie))
        return at + 2;
    return head_word(head, at + 3) != 0 ? at + 3 : at + AREA_WORDS;
}

/* The first word of the first body that breaks row 4, or BLOCK_WORDS. */
static size_t bad_head_word(const uint8_t *head)
{
    uint32_t zones = head_word(head, ZONES), areas = head_word(head, AREAS);
    size_t found = bad_count_word(head);
    if (found <= AREAS)
        return found;
    for (size_t zone = 0; zone < zones; zone++)
        if (!keeps(head_word(head, PRICES + zone), price))
            return PRICES + zone;
    found = first_not_zero(head, PRICES + zones, FIRST_AREA);
    if (found < FIRST_AREA)
        return found;
    size_t end = FIRST_AREA + AREA_WORDS * areas;
    for (size_t at = FIRST_AREA; at < end; at += AREA_WORDS) {
        found = bad_area_word(head, at, zones);
        if (found < at + AREA_WORDS)
            return found;
    }
    return first_not_zero(head, end, BLOCK_WORDS);
}

static inline int record_bad(const uint8_t *record, uint32_t members, uint32_t areas)
{
    uint32_t kind = word(record, KIND);
    if (kind < GENERATOR || kind > EXPORT || word(record, MEMBER) >= members || word(record, AREA) >= areas)
        return 1;
    for (size_t at = SCHEDULED; at < RECORD_WORDS; at++)
        if (!keeps(word(record, at), record_ranges[kind][at - SCHEDULED]))
            return 1;
    return 0;
}

/* The first of records that stand one behind the other, as those of a block do, that breaks row 14; `count` where none does. */
static size_t first_above(const uint8_t *records, size_t count)
{
    size_t record = 0;
    while (record < count && !above_maximum(records + 4 * RECORD_WORDS * record))
        record++;
    return record;
}

sneupelaar_answer examine(const uint8_t *file, size_t file_length)
{
    sneupelaar_answer examined = examine_blocks(&hourly, file, file_length);
    if (examined.number != 0)
        return examined;
    size_t bad = bad_head_word(file + 4 * BODY_WORD);
    if (bad < BLOCK_WORDS)
        return (sneupelaar_answer){ 4, bad };
    uint32_t members = word(file, MEMBERS), areas = word(file, AREAS);
    size_t records = records_in(file, file_length);
    for (size_t record = 0; record < records; record++)
        if (record_bad(record_at(file, record), members, areas))
            return (sneupelaar_answer){ 5, record };
    for (size_t block = 1; block < file_length / BLOCK_BYTES; block++) {
        size_t held = word(block_at(file, block), 2), above = first_above(block_at(file, block) + 4 * BODY_WORD, held);
        if (above < held)
            return (sneupelaar_answer){ 14, BLOCK_RECORDS * (block - 1) + above };
    }
    return (sneupelaar_answer){ 0, 0 };
}

sneupelaar_answer examine_parts(const uint8_t *head, const uint8_t *records, size_t count)
{
    size_t bad = bad_head_word(head);
    if (bad < BLOCK_WORDS)
        return (sneupelaar_answer){ 4, bad };
    uint32_t members = head_word(head, MEMBERS), areas = head_word(head, AREAS);
    for (size_t record = 0; record < count; record++)
        if (record_bad(records + 4 * RECORD_WORDS * record, members, areas))
            return (sneupelaar_answer){ 5, record };
    size_t above = first_above(records, count);
    return above < count ? (sneupelaar_answer){ 14, above } : (sneupelaar_answer){ 0, 0 };
}
