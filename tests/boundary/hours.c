/* hours.c: hours that keep rows 1 to 5 and 14. */
#include "hours.h"

#include <string.h>

#include "chance.h"
#include "numbers.h"

/* Who takes something: a load in every area, mostly; whoever it falls to; or nobody, with every area in balance, so that row 12 is all
   that can be broken. */
static enum { EVERY_AREA, ANYBODY, NOBODY } takers;

/* Whether a kind uses words 3 to 10 of a record: bit 0 is word 3. */
static const unsigned uses[] = { [GENERATOR] = 0xFF, [REAL_TIME_LOAD] = 0x1F, [PROFILE_LOAD] = 0x1F, [IMPORT] = 0xCD, [EXPORT] = 0x07 };

uint32_t *record_words(hour_file *hour, size_t record)
{
    return hour->words + record_word(hour->form, record);
}

static void make_head(hour_file *hour, size_t zones, size_t areas)
{
    uint32_t *words = hour->words;
    words[8] = (uint32_t)chance();
    words[MEMBERS] = (uint32_t)hour->members;
    words[ZONES] = (uint32_t)zones;
    words[AREAS] = (uint32_t)areas;
    for (size_t zone = 0; zone < zones; zone++)
        words[PRICES + zone] = number(-1000000, 1000000);
    for (size_t area = 0; area < areas; area++) {
        uint32_t *ties = words + FIRST_AREA + AREA_WORDS * area;
        ties[0] = (uint32_t)below(zones);
        ties[1] = number(0, 10000000);
        ties[2] = hour->records == 0 || takers == NOBODY ? ties[1] : number(0, 10000000); /* where nobody takes UFE */
    }
}

/* A generator's numbers as they were drawn may break row 14: the larger becomes the maximum. Both equal, which is allowed, is made more
   often than it falls out. */
static void keep_to_maximum(uint32_t *words)
{
    uint32_t scheduled = words[SCHEDULED], maximum = words[MAXIMUM];
    words[SCHEDULED] = scheduled < maximum ? scheduled : maximum;
    words[MAXIMUM] = scheduled < maximum ? maximum : scheduled;
    if (once_in(8))
        words[SCHEDULED] = words[MAXIMUM];
}

static void make_record(uint32_t *words, size_t kind, size_t member, size_t area)
{
    words[KIND] = (uint32_t)kind;
    words[MEMBER] = (uint32_t)member;
    words[AREA] = (uint32_t)area;
    for (size_t at = SCHEDULED; at <= HOUR_AHEAD_MULTIPLIER; at++) {
        if ((uses[kind] >> (at - SCHEDULED) & 1) == 0)
            continue;
        if (at == ADJUSTMENT)
            words[at] = number(-100000, 100000);
        else if (at >= SCHEDULED_MULTIPLIER)
            words[at] = once_in(2) ? 10000 : number(1, 20000);
        else
            words[at] = number(0, 100000);
    }
    if (kind == GENERATOR)
        keep_to_maximum(words);
}

/* Takes what a record adds to its area's UFE or demand out of it. */
static void still(uint32_t *words)
{
    if (words[KIND] == IMPORT)
        words[HOUR_AHEAD_MULTIPLIER] = 10000;
    else if (words[KIND] != EXPORT)
        words[ACTUAL] = 0;
}

static void make_records(hour_file *hour, size_t areas)
{
    for (size_t record = 0; record < hour->records; record++) {
        uint32_t *words = record_words(hour, record);
        size_t member = below(hour->members), area = below(areas), kind = GENERATOR + below(EXPORT);
        if (takers == EVERY_AREA && record < areas) { /* every area has a load that took something */
            make_record(words, kind == PROFILE_LOAD ? PROFILE_LOAD : REAL_TIME_LOAD, member, record);
            words[ACTUAL] += words[ACTUAL] == 0;
        } else {
            make_record(words, kind, member, area);
        }
        if (takers == NOBODY)
            still(words);
    }
}

void make_blocks(hour_file *hour)
{
    size_t in_block = hour->form->block_records, others = (hour->records + in_block - 1) / in_block;
    hour->bytes = BLOCK_BYTES * (1 + others);
    hour->words[0] = hour->form->first_mark;
    hour->words[OTHER_BLOCKS] = (uint32_t)others;
    for (size_t block = 1; block <= others; block++) {
        uint32_t *words = hour->words + BLOCK_WORDS * block;
        words[0] = hour->form->other_mark;
        words[1] = (uint32_t)block;
        words[2] = (uint32_t)(block < others ? in_block : hour->records - in_block * (others - 1));
    }
    for (size_t block = 0; block <= others; block++)
        mend_sum(hour, block);
}

void mend_sum(hour_file *hour, size_t block)
{
    uint32_t *words = hour->words + BLOCK_WORDS * block, sum = 0;
    for (size_t at = 0; at < BLOCK_WORDS; at++)
        sum += words[at];
    words[7] -= sum;
}

void make_hour(hour_file *hour)
{
    memset(hour, 0, sizeof *hour);
    hour->form = &hourly;
    choose_manner();
    hour->members = 1 + below(MOST_MEMBERS);
    hour->records = once_in(8) ? below(MOST_RECORDS + 1) : below(31);
    if (once_in(50))
        hour->records = MOST_RECORDS;
    size_t zones = 1 + below(MOST_ZONES), areas = 1 + below(MOST_AREAS);
    takers = once_in(12) ? ANYBODY : once_in(16) ? NOBODY : EVERY_AREA;
    if (takers == EVERY_AREA && hour->records > 0 && hour->records < areas)
        areas = hour->records;
    make_head(hour, zones, areas);
    make_records(hour, areas);
    make_blocks(hour);
}
