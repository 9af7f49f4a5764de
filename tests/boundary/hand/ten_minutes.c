/* ten_minutes.c: ten-minute settlement by hand (document 02, A7). The records of a member are chained, so that room for one member's nets
   is enough, as in the archive. */
#include "ten_minutes.h"

#include "settle.h"

enum { MOST_ENERGY = 100000, MOST_CHANGE = 100000, MOST_MULTIPLIER = 20000, MOST_PRICE = 100000 };

static const int64_t UNIT = 10000; /* a kWh in units; a multiplier of one */

/* ---- refusals 4 and 5 */

/* The first word of a first body that breaks row 4, or BLOCK_WORDS. */
static size_t bad_head_word(const uint8_t *head)
{
    uint32_t zones = head_word(head, ZONES), areas = head_word(head, AREAS);
    size_t at = bad_count_word(head);
    if (at <= AREAS)
        return at;
    at = first_not_zero(head, at, FIRST_AREA);
    if (at < FIRST_AREA)
        return at;
    for (size_t end = FIRST_AREA + AREA_WORDS * areas; at < end; at += AREA_WORDS) {
        if (head_word(head, at) >= zones)
            return at;
        size_t found = first_not_zero(head, at + 1, at + AREA_WORDS);
        if (found < at + AREA_WORDS)
            return found;
    }
    at = first_not_zero(head, at, FIRST_PRICE);
    if (at < FIRST_PRICE)
        return at;
    for (size_t end = FIRST_PRICE + ZONE_PRICES * zones; at < end; at++)
        if (head_word(head, at) + MOST_PRICE > 2 * MOST_PRICE)
            return at;
    return first_not_zero(head, at, BLOCK_WORDS);
}

/* Whether the words of a record from `at` on, up to `to`, are at most `most`. */
static inline int at_most(const uint8_t *record, size_t at, size_t to, uint32_t most)
{
    while (at < to && word(record, at) <= most)
        at++;
    return at == to;
}

static inline int multipliers_keep(const uint8_t *record)
{
    return word(record, MULTIPLIER_F) - 1 < MOST_MULTIPLIER && word(record, MULTIPLIER_H) - 1 < MOST_MULTIPLIER;
}

static inline int adjustments_keep(const uint8_t *record)
{
    for (size_t at = ADJUSTMENTS; at < ANCILLARIES; at++)
        if (word(record, at) + MOST_CHANGE > 2 * MOST_CHANGE)
            return 0;
    return 1;
}

/* The words that not every kind uses. */
static inline int kind_keeps(const uint8_t *record)
{
    switch (word(record, KIND)) {
    case GENERATOR:
        return at_most(record, BEFORE, MULTIPLIER_F, MOST_ENERGY) && multipliers_keep(record)
            && at_most(record, ACTUALS, ADJUSTMENTS, MOST_ENERGY) && at_most(record, ANCILLARIES, PAST_USE, MOST_ENERGY);
    case REAL_TIME_LOAD:
        return at_most(record, BEFORE, MULTIPLIER_F, MOST_ENERGY) && at_most(record, MULTIPLIER_F, ACTUALS, 0)
            && at_most(record, ACTUALS, ADJUSTMENTS, MOST_ENERGY) && at_most(record, ANCILLARIES, PAST_USE, MOST_ENERGY);
    case PROFILE_LOAD:
        return at_most(record, BEFORE, ACTUALS, 0) && word(record, ACTUALS) <= MOST_ENERGY
            && at_most(record, ACTUALS + 1, ADJUSTMENTS, 0) && at_most(record, ANCILLARIES, PAST_USE, MOST_ENERGY);
    case IMPORT:
        return at_most(record, BEFORE, MULTIPLIER_F, 0) && multipliers_keep(record) && at_most(record, ACTUALS, ADJUSTMENTS, 0)
            && at_most(record, ANCILLARIES, PAST_USE, MOST_ENERGY);
    case EXPORT:
        return at_most(record, BEFORE, ACTUALS, 0) && at_most(record, ACTUALS, ADJUSTMENTS, MOST_ENERGY)
            && at_most(record, ANCILLARIES, PAST_USE, 0);
    default:
        return 0;
    }
}

static inline int record_bad(const uint8_t *record, uint32_t members, uint32_t areas)
{
    return word(record, MEMBER) >= members || word(record, AREA) >= areas || word(record, SCHEDULED) > MOST_ENERGY
        || !adjustments_keep(record) || !at_most(record, PAST_USE, TEN_MINUTE_RECORD_WORDS, 0) || !kind_keeps(record);
}

static const uint8_t *ten_minute_record(const uint8_t *file, size_t record)
{
    return file + 4 * record_word(&ten_minute, record);
}

static sneupelaar_answer examine_ten_minutes(const uint8_t *file, size_t file_length)
{
    sneupelaar_answer examined = examine_blocks(&ten_minute, file, file_length);
    if (examined.number != 0)
        return examined;
    size_t bad = bad_head_word(file + 4 * BODY_WORD);
    if (bad < BLOCK_WORDS)
        return (sneupelaar_answer){ 4, bad };
    uint32_t members = word(file, MEMBERS), areas = word(file, AREAS);
    size_t records = records_held(&ten_minute, file, file_length);
    for (size_t record = 0; record < records; record++)
        if (record_bad(ten_minute_record(file, record), members, areas))
            return (sneupelaar_answer){ 5, record };
    return (sneupelaar_answer){ 0, 0 };
}

/* ---- the sums, in 24ths */

static inline int64_t actual(const uint8_t *record, size_t interval)
{
    return 24 * (int64_t)word(record, ACTUALS + interval);
}

static inline int64_t adjustment(const uint8_t *record, size_t interval)
{
    return 24 * (int64_t)(int32_t)word(record, ADJUSTMENTS + interval);
}

static inline int64_t ancillary(const uint8_t *record, size_t interval)
{
    return 24 * (int64_t)word(record, ANCILLARIES + interval);
}

/* What generators and real-time loads have beside a plain sixth: the first interval comes from the schedule of the hour before, the last
   goes to that of the next. */
static void add_ramp(const uint8_t *record, int64_t scheduled, int64_t multiplier, int64_t *nets)
{
    nets[0] -= (scheduled - word(record, BEFORE)) * multiplier;
    nets[INTERVALS - 1] += (word(record, NEXT) - scheduled) * multiplier;
}

/* The six deviations of a record, as they enter its member's nets: document 01's, with the unavailable energy left out. */
static void add_deviations(const uint8_t *record, int64_t *nets)
{
    int64_t s = word(record, SCHEDULED), f = word(record, MULTIPLIER_F), h = word(record, MULTIPLIER_H);
    switch (word(record, KIND)) {
    case GENERATOR:
        for (size_t k = 0; k < INTERVALS; k++)
            nets[k] += 4 * s * f - (actual(record, k) - adjustment(record, k)) * h + UNIT * ancillary(record, k);
        add_ramp(record, s, f, nets);
        break;
    case REAL_TIME_LOAD:
        for (size_t k = 0; k < INTERVALS; k++)
            nets[k] -= UNIT * (4 * s - (actual(record, k) - adjustment(record, k) + ancillary(record, k)));
        add_ramp(record, s, -UNIT, nets);
        break;
    case PROFILE_LOAD:
        for (size_t k = 0; k < INTERVALS; k++)
            nets[k] -= UNIT * (4 * s - (4 * (int64_t)word(record, ACTUALS) - adjustment(record, k) + ancillary(record, k)));
        break;
    case IMPORT:
        for (size_t k = 0; k < INTERVALS; k++)
            nets[k] += 4 * s * f - (4 * s - adjustment(record, k)) * h + UNIT * ancillary(record, k);
        break;
    default:
        for (size_t k = 0; k < INTERVALS; k++)
            nets[k] -= UNIT * (4 * s - actual(record, k) - adjustment(record, k));
    }
}

static size_t zone_of(const uint8_t *file, const uint8_t *record)
{
    return word(file, FIRST_AREA + AREA_WORDS * word(record, AREA));
}

/* What a member's nets cost over all zones and intervals. */
static int64_t amount_of(const uint8_t *file, size_t zones, const int64_t *nets)
{
    int64_t amount = 0;
    for (size_t zone = 0; zone < zones; zone++)
        for (size_t k = 0; k < INTERVALS; k++) {
            int64_t net = nets[INTERVALS * zone + k];
            size_t at = FIRST_PRICE + ZONE_PRICES * zone + k;
            amount += net * (int32_t)word(file, net < 0 ? at + INTERVALS : at);
        }
    return amount;
}

void exact_amounts(const uint8_t *file, size_t file_length, int64_t *amounts)
{
    uint8_t last[MOST_MEMBERS] = { 0 }, before[TEN_MINUTE_RECORDS + 1]; /* a record's number and 1; 0 for none */
    size_t members = word(file, MEMBERS), zones = word(file, ZONES), records = records_held(&ten_minute, file, file_length);
    for (size_t at = 1; at <= records; at++) {
        size_t member = word(ten_minute_record(file, at - 1), MEMBER);
        before[at] = last[member];
        last[member] = (uint8_t)at;
    }
    for (size_t member = 0; member < members; member++) {
        int64_t nets[INTERVALS * MOST_ZONES] = { 0 };
        for (size_t at = last[member]; at != 0; at = before[at]) {
            const uint8_t *record = ten_minute_record(file, at - 1);
            add_deviations(record, nets + INTERVALS * zone_of(file, record));
        }
        amounts[member] = amount_of(file, zones, nets);
    }
}

sneupelaar_answer hand_settle_ten_minutes(const uint8_t *file, size_t file_length, int64_t *charges, size_t charges_length)
{
    sneupelaar_answer answer = examine_ten_minutes(file, file_length);
    if (answer.number != 0)
        return answer;
    size_t members = word(file, MEMBERS);
    if (charges_length < members)
        return (sneupelaar_answer){ 11, 0 };
    exact_amounts(file, file_length, charges);
    for (size_t member = 0; member < members; member++)
        charges[member] = nearest(charges[member], CENT_IN_24THS);
    return (sneupelaar_answer){ 0, 0 };
}
