/* ten_minute_hours.c: ten-minute hours that keep rows 1 to 5. */
#include <string.h>

#include "chance.h"
#include "hours.h"
#include "numbers.h"

enum { MOST_ENERGY = 100000, MOST_PRICE = 100000 };

int kind_uses(size_t kind, size_t at)
{
    if (at == BEFORE || at == NEXT)
        return kind == GENERATOR || kind == REAL_TIME_LOAD;
    if (at == MULTIPLIER_F || at == MULTIPLIER_H)
        return kind == GENERATOR || kind == IMPORT;
    if (at >= ACTUALS && at < ADJUSTMENTS)
        return kind == PROFILE_LOAD ? at == ACTUALS : kind != IMPORT;
    if (at >= ANCILLARIES && at < PAST_USE)
        return kind != EXPORT;
    return at < PAST_USE;
}

static void make_head(hour_file *hour, size_t zones, size_t areas)
{
    uint32_t *words = hour->words;
    words[8] = (uint32_t)chance();
    words[MEMBERS] = (uint32_t)hour->members;
    words[ZONES] = (uint32_t)zones;
    words[AREAS] = (uint32_t)areas;
    for (size_t area = 0; area < areas; area++)
        words[FIRST_AREA + AREA_WORDS * area] = (uint32_t)below(zones);
    for (size_t at = 0; at < ZONE_PRICES * zones; at++)
        words[FIRST_PRICE + at] = number(-MOST_PRICE, MOST_PRICE);
}

static uint32_t some_word(size_t at)
{
    if (at == MULTIPLIER_F || at == MULTIPLIER_H)
        return once_in(2) ? 10000 : number(1, 20000);
    if (at >= ADJUSTMENTS && at < ANCILLARIES)
        return number(-MOST_ENERGY, MOST_ENERGY);
    return number(0, MOST_ENERGY);
}

/* A record's words; in some every interval has what the plan has, so that only adjustments and ramps are left to pay for. */
static void make_record(uint32_t *words, size_t member, size_t area)
{
    size_t kind = GENERATOR + below(EXPORT);
    int as_planned = once_in(8);
    words[KIND] = (uint32_t)kind;
    words[MEMBER] = (uint32_t)member;
    words[AREA] = (uint32_t)area;
    for (size_t at = SCHEDULED; at < PAST_USE; at++)
        if (kind_uses(kind, at))
            words[at] = some_word(at);
    if (!as_planned)
        return;
    words[SCHEDULED] -= words[SCHEDULED] % INTERVALS;
    for (size_t at = ACTUALS; at < ADJUSTMENTS; at++)
        if (kind_uses(kind, at))
            words[at] = kind == PROFILE_LOAD ? words[SCHEDULED] : words[SCHEDULED] / INTERVALS;
}

/* Half of the hours have few members, so that several records meet in a net. */
void make_ten_minute_hour(hour_file *hour)
{
    memset(hour, 0, sizeof *hour);
    hour->form = &ten_minute;
    choose_manner();
    hour->members = 1 + below(once_in(2) ? 4 : MOST_MEMBERS);
    hour->records = below(once_in(8) ? TEN_MINUTE_RECORDS + 1 : 13);
    if (once_in(24))
        hour->records = TEN_MINUTE_RECORDS;
    size_t zones = 1 + below(MOST_ZONES), areas = 1 + below(MOST_AREAS);
    make_head(hour, zones, areas);
    for (size_t record = 0; record < hour->records; record++) {
        size_t member = below(hour->members), area = below(areas);
        make_record(record_words(hour, record), member, area);
    }
    make_blocks(hour);
}
