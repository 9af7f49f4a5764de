/* missummed.c: ten-minute settling with a fault in its sums, to see that the comparison finds it. An accepted file is changed so that it
   says what the fault would read in it, and the changed one is settled. Where a change breaks a row, the file's own charges stay: such a
   fault would not be found. */
#include <stddef.h>
#include <string.h>

#include "hours.h"
#include "trials.h"

/* A change of the first block's words, or of a record's. */
typedef void change(uint32_t *words);

static void prices_of_zone_0(uint32_t *head)
{
    for (size_t at = ZONE_PRICES; at < ZONE_PRICES * head[ZONES]; at++)
        head[FIRST_PRICE + at] = head[FIRST_PRICE + at % ZONE_PRICES];
}

/* A member's energy of all zones in one net. */
static void zones_netted(uint32_t *head)
{
    for (size_t area = 0; area < head[AREAS]; area++)
        head[FIRST_AREA + AREA_WORDS * area] = 0;
}

static void prices_of_interval_1(uint32_t *head)
{
    for (size_t at = 0; at < ZONE_PRICES * head[ZONES]; at++)
        head[FIRST_PRICE + at] = head[FIRST_PRICE + at - at % INTERVALS];
}

static void one_price_for_both(uint32_t *head)
{
    for (size_t at = 0; at < ZONE_PRICES * head[ZONES]; at++)
        if (at % ZONE_PRICES >= INTERVALS)
            head[FIRST_PRICE + at] = head[FIRST_PRICE + at - INTERVALS];
}

static void prices_exchanged(uint32_t *head)
{
    for (size_t at = 0; at < ZONE_PRICES * head[ZONES]; at++)
        if (at % ZONE_PRICES < INTERVALS) {
            uint32_t incremental = head[FIRST_PRICE + at];
            head[FIRST_PRICE + at] = head[FIRST_PRICE + at + INTERVALS];
            head[FIRST_PRICE + at + INTERVALS] = incremental;
        }
}

static int is_ramped(const uint32_t *record)
{
    return kind_uses(record[KIND], BEFORE);
}

static void ramp_left_out(uint32_t *record)
{
    if (is_ramped(record))
        record[BEFORE] = record[NEXT] = record[SCHEDULED];
}

static void ramp_of_the_hour_before(uint32_t *record)
{
    if (is_ramped(record))
        record[NEXT] = record[SCHEDULED];
}

static void ramps_exchanged(uint32_t *record)
{
    uint32_t before = record[BEFORE];
    record[BEFORE] = record[NEXT];
    record[NEXT] = before;
}

/* The hourly reading taken for every interval's: as of a real-time load without a ramp. */
static void reading_not_divided(uint32_t *record)
{
    if (record[KIND] != PROFILE_LOAD)
        return;
    record[KIND] = REAL_TIME_LOAD;
    ramp_left_out(record);
    for (size_t at = ACTUALS + 1; at < ADJUSTMENTS; at++)
        record[at] = record[ACTUALS];
}

/* Words 8 to 13 of an import, which are zero, taken for its actual energy: as of a generator without a ramp. */
static void import_not_deemed(uint32_t *record)
{
    if (record[KIND] != IMPORT)
        return;
    record[KIND] = GENERATOR;
    ramp_left_out(record);
}

static void adjustments_negated(uint32_t *record)
{
    for (size_t at = ADJUSTMENTS; at < ANCILLARIES; at++)
        record[at] = -record[at];
}

/* An export's deviation not taken off: as of a generator without a ramp and without losses, whose adjustment counts the other way. */
static void exports_added(uint32_t *record)
{
    if (record[KIND] != EXPORT)
        return;
    record[KIND] = GENERATOR;
    ramp_left_out(record);
    record[MULTIPLIER_F] = record[MULTIPLIER_H] = 10000;
    adjustments_negated(record);
}

/* One multiplier for schedule and actual. */
static void one_multiplier(uint32_t *record)
{
    record[MULTIPLIER_H] = record[MULTIPLIER_F];
}

/* Each interval of a real-time load with the reading of the one before. */
static void readings_one_further(uint32_t *record)
{
    for (size_t at = ADJUSTMENTS - 1; record[KIND] == REAL_TIME_LOAD && at > ACTUALS; at--)
        record[at] = record[at - 1];
}

/* A record that deviates by nothing. */
static void not_posted(uint32_t *record)
{
    record[KIND] = EXPORT;
    memset(record + SCHEDULED, 0, (TEN_MINUTE_RECORD_WORDS - SCHEDULED) * sizeof *record);
}

typedef struct {
    const char *name;
    change *of_head, *of_record, *of_last_record;
} fault;

static const fault faults[] = {
    { "prices", prices_of_zone_0, NULL, NULL }, { "zones", zones_netted, NULL, NULL }, { "six", prices_of_interval_1, NULL, NULL },
    { "one", one_price_for_both, NULL, NULL }, { "exchanged", prices_exchanged, NULL, NULL }, { "ramp", NULL, ramp_left_out, NULL },
    { "coming", NULL, ramp_of_the_hour_before, NULL }, { "neighbours", NULL, ramps_exchanged, NULL },
    { "reading", NULL, reading_not_divided, NULL }, { "deemed", NULL, import_not_deemed, NULL }, { "exported", NULL, exports_added, NULL },
    { "adjusted", NULL, adjustments_negated, NULL }, { "multiplier", NULL, one_multiplier, NULL },
    { "shifted", NULL, readings_one_further, NULL }, { "posted", NULL, NULL, not_posted },
};

static const fault *put_in;

static void change_hour(hour_file *hour)
{
    if (put_in->of_head != NULL)
        put_in->of_head(hour->words);
    for (size_t record = 0; record < hour->records; record++) {
        if (put_in->of_record != NULL)
            put_in->of_record(record_words(hour, record));
        if (put_in->of_last_record != NULL && record + 1 == hour->records)
            put_in->of_last_record(record_words(hour, record));
    }
    for (size_t block = 0; block < hour->bytes / BLOCK_BYTES; block++)
        mend_sum(hour, block);
}

static sneupelaar_answer settle_changed(const uint8_t *file, size_t file_length, int64_t *charges, size_t charges_length)
{
    static hour_file changed;
    sneupelaar_answer answer = sneupelaar_settle_ten_minutes(file, file_length, charges, charges_length);
    if (answer.number != 0)
        return answer;
    changed.form = &ten_minute;
    changed.bytes = file_length;
    changed.records = records_held(&ten_minute, file, file_length);
    memcpy(changed.words, file, file_length);
    change_hour(&changed);
    sneupelaar_settle_ten_minutes((const uint8_t *)changed.words, file_length, charges, charges_length);
    return answer;
}

settle_ten_minutes_function *missummed(const char *how)
{
    for (size_t at = 0; at < sizeof faults / sizeof *faults; at++)
        if (strcmp(how, faults[at].name) == 0) {
            put_in = &faults[at];
            return settle_changed;
        }
    return NULL;
}
