/* damage.c: hours of either form spoiled: bits, counts, ranges left by one, schedules above a maximum, words that a kind doesn't use,
   blocks and lengths that are wrong. */
#include <string.h>

#include "chance.h"
#include "hours.h"

static size_t blocks_of(const hour_file *hour)
{
    return hour->bytes / BLOCK_BYTES;
}

static void flip_bit(hour_file *hour)
{
    size_t bit = below(8 * hour->bytes);
    hour->words[bit / 32] ^= 1u << bit % 32;
    if (once_in(2))
        mend_sum(hour, bit / 32 / BLOCK_WORDS);
}

/* Words 0 to 6 of a block: each one off, or anything. */
static void spoil_front(hour_file *hour)
{
    size_t block = below(blocks_of(hour));
    uint32_t *word = hour->words + BLOCK_WORDS * block + below(7);
    *word = once_in(4) ? (uint32_t)chance() : *word + (once_in(2) ? 1 : -1u);
    mend_sum(hour, block);
}

/* A block's count of records, with the records as they were. */
static void spoil_count(hour_file *hour)
{
    const uint32_t full = (uint32_t)hour->form->block_records;
    const uint32_t counts[] = { 0, 1, full - 1, full, full + 1, full + 2, 0x80000000, 0xFFFFFFFF };
    size_t block = below(blocks_of(hour));
    hour->words[BLOCK_WORDS * block + 2] = counts[below(sizeof counts / sizeof *counts)];
    mend_sum(hour, block);
}

/* Something in a block's last words, past its records or past the head. */
static void spoil_zeros(hour_file *hour)
{
    size_t block = below(blocks_of(hour)), at = BLOCK_WORDS - 1 - below(80);
    hour->words[BLOCK_WORDS * block + at] = once_in(2) ? 1 : (uint32_t)chance();
    mend_sum(hour, block);
}

/* A number one past an end of some range of the tables, or anything. */
static uint32_t past_an_end(void)
{
    static const uint32_t ends[] = { 0, 1, 5, 6, 9, 33, 20001, 100001, -100001u, 1000001, -1000001u, 10000001, 0x7FFFFFFF, 0x80000000 };
    return once_in(8) ? (uint32_t)chance() : ends[below(sizeof ends / sizeof *ends)];
}

static void spoil_head(hour_file *hour)
{
    size_t past = is_hourly(hour) ? FIRST_AREA + AREA_WORDS * MOST_AREAS : FIRST_PRICE + ZONE_PRICES * MOST_ZONES;
    size_t at = once_in(4) ? BODY_WORD + below(BLOCK_WORDS - BODY_WORD) : MEMBERS + below(past - MEMBERS);
    hour->words[at] = past_an_end();
    mend_sum(hour, 0);
}

static void spoil_record(hour_file *hour)
{
    if (hour->records == 0 || blocks_of(hour) < 2)
        return;
    size_t block = 1 + below(blocks_of(hour) - 1);
    size_t full = hour->form->block_records, record = full * (block - 1);
    record += below(block < blocks_of(hour) - 1 ? full : hour->records - record);
    uint32_t *words = record_words(hour, record), at = below(hour->form->record_words);
    words[at] = at == MEMBER ? (uint32_t)hour->members : at == AREA ? hour->words[AREAS] : past_an_end();
    mend_sum(hour, block);
}

/* The first record of a kind from some record on, and then from the first; the number of records where there is none. */
static size_t some_of_kind(hour_file *hour, uint32_t kind)
{
    size_t from = hour->records == 0 ? 0 : below(hour->records);
    for (size_t past = 0; past < hour->records; past++) {
        size_t record = (from + past) % hour->records;
        if (record_words(hour, record)[KIND] == kind)
            return record;
    }
    return hour->records;
}

/* An import with an actual energy, as scheduled or another: a word that it does not use. */
static void spoil_import(hour_file *hour)
{
    size_t record = some_of_kind(hour, IMPORT);
    if (record == hour->records)
        return;
    uint32_t *words = record_words(hour, record);
    words[ACTUAL] = once_in(2) ? words[SCHEDULED] : past_an_end();
    mend_sum(hour, 1 + record / BLOCK_RECORDS);
}

/* A word that the kind of a ten-minute record doesn't use. */
static void spoil_unused(hour_file *hour)
{
    if (hour->records == 0)
        return;
    size_t record = below(hour->records), at = SCHEDULED;
    uint32_t *words = record_words(hour, record);
    while (kind_uses(words[KIND], at))
        at = SCHEDULED + below(TEN_MINUTE_RECORD_WORDS - SCHEDULED);
    words[at] = once_in(2) ? words[SCHEDULED] : past_an_end();
    mend_sum(hour, 1 + record / ten_minute.block_records);
}

/* The marks of an hour file, in the first block or in all of them. */
static void mark_as_hourly(hour_file *hour)
{
    size_t marked = once_in(4) ? 1 : blocks_of(hour);
    for (size_t block = 0; block < marked; block++) {
        hour->words[BLOCK_WORDS * block] = block == 0 ? hourly.first_mark : hourly.other_mark;
        mend_sum(hour, block);
    }
}

/* A generator scheduled above its maximum, by one or by anything that its range allows. */
static void spoil_schedule(hour_file *hour)
{
    enum { MOST_ENERGY = 100000 };
    size_t record = some_of_kind(hour, GENERATOR);
    if (record == hour->records)
        return;
    uint32_t *words = record_words(hour, record);
    if (words[MAXIMUM] >= MOST_ENERGY || once_in(8))
        words[MAXIMUM] = once_in(2) ? 0 : MOST_ENERGY - 1;
    words[SCHEDULED] = once_in(2) ? words[MAXIMUM] + 1 : (uint32_t)between(words[MAXIMUM] + 1, MOST_ENERGY);
    mend_sum(hour, 1 + record / BLOCK_RECORDS);
}

/* One such generator, or several; sometimes with a record that breaks row 5, before or behind it: row 5 is looked for in all of them
   first. */
static void spoil_schedules(hour_file *hour)
{
    for (size_t left = once_in(2) ? 1 : 2 + below(3); left > 0; left--)
        spoil_schedule(hour);
    if (once_in(4))
        spoil_record(hour);
}

static void swap_blocks(hour_file *hour)
{
    uint32_t held[BLOCK_WORDS];
    uint32_t *one = hour->words + BLOCK_WORDS * below(blocks_of(hour)), *other = hour->words + BLOCK_WORDS * below(blocks_of(hour));
    memcpy(held, one, sizeof held);
    memmove(one, other, sizeof held);
    memcpy(other, held, sizeof held);
}

/* No bytes, too few, no multiple of a block, a block less or more than is said, one more than may be. */
static void spoil_length(hour_file *hour)
{
    size_t bytes = hour->bytes;
    size_t lengths[] = { 0, bytes - 1, bytes + 1, below(bytes), bytes - BLOCK_BYTES, bytes + BLOCK_BYTES,
        (hour->form->most_blocks + 1) * BLOCK_BYTES };
    size_t length = lengths[below(sizeof lengths / sizeof *lengths)];
    hour->bytes = length > sizeof hour->words ? sizeof hour->words : length;
}

typedef void damage(hour_file *);

void damage_hour(hour_file *hour)
{
    static damage *const of_hourly[] = {
        flip_bit, spoil_front, spoil_count, spoil_zeros, spoil_head, spoil_record, spoil_import, spoil_schedules, swap_blocks
    };
    static damage *const of_ten_minute[] = {
        flip_bit, spoil_front, spoil_count, spoil_zeros, spoil_head, spoil_record, spoil_unused, mark_as_hourly, swap_blocks
    };
    enum { DAMAGES = sizeof of_hourly / sizeof *of_hourly };
    damage *const *damages = is_hourly(hour) ? of_hourly : of_ten_minute;
    damages[below(DAMAGES)](hour);
    if (once_in(4))
        damages[below(DAMAGES)](hour);
    if (once_in(8))
        spoil_length(hour);
}
