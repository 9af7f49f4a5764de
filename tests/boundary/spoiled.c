/* spoiled.c: settling with a fault put in, to see that the comparison finds it. */
#include <stddef.h>
#include <string.h>

#include "hand/settle.h"
#include "hand/share.h"
#include "misrounded.h"
#include "trials.h"

#define ARGUMENTS \
    const uint8_t *file, size_t file_length, sneupelaar_line *lines, size_t lines_length, int64_t *charges, size_t charges_length, \
        int64_t *finals, size_t finals_length, int64_t *shares, size_t shares_length, int64_t *deviations, size_t deviations_length
#define PASSED \
    file, file_length, lines, lines_length, charges, charges_length, finals, finals_length, shares, shares_length, deviations, \
        deviations_length

static sneupelaar_settled wrong_place(ARGUMENTS)
{
    sneupelaar_settled settled = sneupelaar_settle(PASSED);
    settled.place += settled.number == 5;
    return settled;
}

static sneupelaar_settled wrong_ufe(ARGUMENTS)
{
    sneupelaar_settled settled = sneupelaar_settle(PASSED);
    settled.ufe[7] += settled.number == 11;
    return settled;
}

/* Room past the members or records is unchanged: not here. */
static sneupelaar_settled last_line(ARGUMENTS)
{
    sneupelaar_settled settled = sneupelaar_settle(PASSED);
    if (settled.number == 0)
        lines[lines_length - 1].records++;
    return settled;
}

static sneupelaar_settled last_share(ARGUMENTS)
{
    sneupelaar_settled settled = sneupelaar_settle(PASSED);
    if (settled.number == 0 && shares_length > 0)
        shares[shares_length - 1]++;
    return settled;
}

static sneupelaar_settled first_deviation(ARGUMENTS)
{
    sneupelaar_settled settled = sneupelaar_settle(PASSED);
    if (settled.number == 0 && deviations_length > 0)
        deviations[0]--;
    return settled;
}

/* A refusal changes nothing: here it does. */
static sneupelaar_settled charge_on_refusal(ARGUMENTS)
{
    sneupelaar_settled settled = sneupelaar_settle(PASSED);
    if (settled.number == 11 && charges_length > 0)
        charges[charges_length - 1] ^= 1;
    return settled;
}

/* The place before or after the charges: caught as slack or by the pages, as the buffer lies. */
static sneupelaar_settled beside_charges(ARGUMENTS)
{
    sneupelaar_settled settled = sneupelaar_settle(PASSED);
    if (settled.number == 0)
        charges[charges_length] = 0;
    return settled;
}

/* Exact amounts rounded otherwise; the finals are left as they are. */
static sneupelaar_settled settle_rounded(rounding *round, ARGUMENTS)
{
    sneupelaar_settled settled = sneupelaar_settle(PASSED);
    for (size_t member = 0; settled.number == 0 && member < word(file, MEMBERS); member++)
        charges[member] = round(lines[member].amount, CENT);
    return settled;
}

static sneupelaar_settled halves_rounded_away(ARGUMENTS)
{
    return settle_rounded(halves_away_from_zero, PASSED);
}

static sneupelaar_settled halves_rounded_to_zero(ARGUMENTS)
{
    return settle_rounded(halves_towards_zero, PASSED);
}

/* A share of N added to the charge instead of taken off. */
static sneupelaar_settled share_added(ARGUMENTS)
{
    sneupelaar_settled settled = sneupelaar_settle(PASSED);
    if (settled.number == 0)
        for (size_t member = 0; member < word(file, MEMBERS); member++)
            finals[member] = charges[member] + (charges[member] - finals[member]);
    return settled;
}

/* N shared by what loads metered in real time took, and those alone. */
static sneupelaar_settled real_time_alone(ARGUMENTS)
{
    sneupelaar_settled settled = sneupelaar_settle(PASSED);
    if (settled.number != 0)
        return settled;
    uint32_t demands[MOST_MEMBERS] = { 0 }, total = 0;
    int64_t sum = 0, parts[MOST_MEMBERS] = { 0 };
    for (size_t at = 0; at < records_in(file, file_length); at++) {
        const uint8_t *record = record_at(file, at);
        uint32_t demand = word(record, KIND) == REAL_TIME_LOAD ? word(record, ACTUAL) : 0;
        demands[word(record, MEMBER)] += demand;
        total += demand;
    }
    size_t members = word(file, MEMBERS);
    for (size_t member = 0; member < members; member++)
        sum += charges[member];
    if (total != 0)
        share_by_demand(sum, total, demands, members, parts);
    for (size_t member = 0; member < members; member++)
        finals[member] = charges[member] - parts[member];
    return settled;
}

/* Row 12 looked for after row 11. */
static sneupelaar_settled twelve_last(ARGUMENTS)
{
    sneupelaar_settled settled = sneupelaar_settle(PASSED);
    if (settled.number == 12 && finals_length < word(file, MEMBERS))
        settled.number = 11;
    return settled;
}

/* An import whose word 4 isn't zero, settled as though it were. */
static sneupelaar_settled import_let_through(ARGUMENTS)
{
    static uint8_t without[MOST_BLOCKS * BLOCK_BYTES];
    sneupelaar_settled settled = sneupelaar_settle(PASSED);
    if (settled.number != 5 || word(record_at(file, settled.place), KIND) != IMPORT)
        return settled;
    memcpy(without, file, file_length);
    uint8_t *block = without + BLOCK_BYTES * (1 + settled.place / BLOCK_RECORDS);
    change_word(block, BODY_WORD + RECORD_WORDS * (settled.place % BLOCK_RECORDS) + ACTUAL, 0);
    file = without;
    return sneupelaar_settle(PASSED);
}

/* The actual energy of an import, which is deemed to be the scheduled one; 0 of another record. */
static int64_t imported(const uint8_t *record)
{
    return word(record, KIND) == IMPORT ? word(record, SCHEDULED) : 0;
}

/* Losses of imports by word 4, which is zero: the UFE is without them. */
static sneupelaar_settled losses_by_word_4(ARGUMENTS)
{
    sneupelaar_settled settled = sneupelaar_settle(PASSED);
    for (size_t at = 0; settled.number == 0 && at < records_in(file, file_length); at++) {
        const uint8_t *record = record_at(file, at);
        settled.ufe[word(record, AREA)] += imported(record) * (10000 - (int64_t)word(record, HOUR_AHEAD_MULTIPLIER));
    }
    return settled;
}

/* And their deviations: what they brought is not taken off. */
static sneupelaar_settled deviation_by_word_4(ARGUMENTS)
{
    sneupelaar_settled settled = sneupelaar_settle(PASSED);
    for (size_t at = 0; settled.number == 0 && at < records_in(file, file_length); at++) {
        const uint8_t *record = record_at(file, at);
        deviations[at] += imported(record) * word(record, HOUR_AHEAD_MULTIPLIER);
    }
    return settled;
}

/* Whether two records are loads of one area that took as much: their remainders are equal. */
static int equal_loads(const uint8_t *one, const uint8_t *other)
{
    int loads = (word(one, KIND) == REAL_TIME_LOAD || word(one, KIND) == PROFILE_LOAD)
        && (word(other, KIND) == REAL_TIME_LOAD || word(other, KIND) == PROFILE_LOAD);
    return loads && word(one, AREA) == word(other, AREA) && word(one, ACTUAL) == word(other, ACTUAL);
}

/* Of loads with equal remainders the earlier got a unit and the later didn't: the units at the bound are dealt out otherwise. */
static sneupelaar_settled dealt_otherwise(void (*deal)(int64_t *earlier, int64_t *later), ARGUMENTS)
{
    sneupelaar_settled settled = sneupelaar_settle(PASSED);
    size_t records = settled.number == 0 ? records_in(file, file_length) : 0;
    for (size_t later = 1; later < records; later++)
        for (size_t earlier = 0; earlier < later; earlier++)
            if (equal_loads(record_at(file, earlier), record_at(file, later)) && shares[earlier] != shares[later])
                deal(&shares[earlier], &shares[later]);
    return settled;
}

static void to_both(int64_t *earlier, int64_t *later)
{
    *later = *earlier;
}

static void to_neither(int64_t *earlier, int64_t *later)
{
    *earlier = *later;
}

static void to_later(int64_t *earlier, int64_t *later)
{
    int64_t share = *earlier;
    *earlier = *later;
    *later = share;
}

static sneupelaar_settled unit_to_all_at_bound(ARGUMENTS)
{
    return dealt_otherwise(to_both, PASSED);
}

static sneupelaar_settled unit_to_none_at_bound(ARGUMENTS)
{
    return dealt_otherwise(to_neither, PASSED);
}

static sneupelaar_settled unit_to_later(ARGUMENTS)
{
    return dealt_otherwise(to_later, PASSED);
}

/* What is said of a record. */
typedef int judgement(const uint8_t *record);

/* The first record of which that is so, or the number of records. */
static size_t first_judged(const uint8_t *file, size_t file_length, judgement *so)
{
    size_t records = records_in(file, file_length), at = 0;
    while (at < records && !so(record_at(file, at)))
        at++;
    return at;
}

/* An accepted hour refused by row 14, as another judgement has it. */
static sneupelaar_settled judged_otherwise(judgement *so, ARGUMENTS)
{
    sneupelaar_settled settled = sneupelaar_settle(PASSED);
    size_t records = settled.number == 0 ? records_in(file, file_length) : 0;
    size_t found = records == 0 ? 0 : first_judged(file, file_length, so);
    return found < records ? (sneupelaar_settled){ .number = 14, .place = found } : settled;
}

static int generator_at_maximum(const uint8_t *record)
{
    return word(record, KIND) == GENERATOR && word(record, SCHEDULED) == word(record, MAXIMUM);
}

/* A load has no maximum: the word is zero. */
static int load_above_maximum(const uint8_t *record)
{
    int load = word(record, KIND) == REAL_TIME_LOAD || word(record, KIND) == PROFILE_LOAD;
    return load && word(record, SCHEDULED) > word(record, MAXIMUM);
}

static int metered_above_maximum(const uint8_t *record)
{
    return word(record, KIND) == GENERATOR && word(record, ACTUAL) > word(record, MAXIMUM);
}

static sneupelaar_settled equal_refused(ARGUMENTS)
{
    return judged_otherwise(generator_at_maximum, PASSED);
}

static sneupelaar_settled loads_judged(ARGUMENTS)
{
    return judged_otherwise(load_above_maximum, PASSED);
}

static sneupelaar_settled actual_judged(ARGUMENTS)
{
    return judged_otherwise(metered_above_maximum, PASSED);
}

const uint8_t *schedules_lowered(const uint8_t *file, size_t file_length)
{
    static uint8_t lowered[MOST_BLOCKS * BLOCK_BYTES];
    memcpy(lowered, file, file_length);
    for (size_t at = 0; at < records_in(file, file_length); at++) {
        const uint8_t *record = record_at(file, at);
        uint8_t *block = lowered + BLOCK_BYTES * (1 + at / BLOCK_RECORDS);
        if (above_maximum(record))
            change_word(block, BODY_WORD + RECORD_WORDS * (at % BLOCK_RECORDS) + SCHEDULED, word(record, MAXIMUM));
    }
    return lowered;
}

/* Generators scheduled above their maximum, settled as though they were scheduled at it. */
static sneupelaar_settled above_let_through(ARGUMENTS)
{
    sneupelaar_settled settled = sneupelaar_settle(PASSED);
    if (settled.number != 14)
        return settled;
    file = schedules_lowered(file, file_length);
    return sneupelaar_settle(PASSED);
}

static sneupelaar_settled last_above(ARGUMENTS)
{
    sneupelaar_settled settled = sneupelaar_settle(PASSED);
    for (size_t at = settled.place; settled.number == 14 && at < records_in(file, file_length); at++)
        if (above_maximum(record_at(file, at)))
            settled.place = at;
    return settled;
}

/* Rows 5 and 14 looked for at one record after the other, so that 14 is answered where row 5 is broken behind it. */
static sneupelaar_settled five_with_fourteen(ARGUMENTS)
{
    sneupelaar_settled settled = sneupelaar_settle(PASSED);
    size_t above = settled.number == 5 ? first_judged(file, file_length, above_maximum) : settled.place;
    return above < settled.place ? (sneupelaar_settled){ .number = 14, .place = above } : settled;
}

/* Row 14 looked for after row 6. Without room the other hour is refused by row 11 if by nothing else, and nothing is written. */
static sneupelaar_settled fourteen_after_six(ARGUMENTS)
{
    sneupelaar_settled settled = sneupelaar_settle(PASSED);
    if (settled.number != 14)
        return settled;
    const uint8_t *lowered = schedules_lowered(file, file_length);
    sneupelaar_settled later = sneupelaar_settle(lowered, file_length, NULL, 0, NULL, 0, NULL, 0, NULL, 0, NULL, 0);
    return later.number == 6 ? later : settled;
}

/* Row 14 looked for after row 11. */
static sneupelaar_settled fourteen_last(ARGUMENTS)
{
    sneupelaar_settled settled = sneupelaar_settle(PASSED);
    if (settled.number == 14 && (charges_length < word(file, MEMBERS) || shares_length < records_in(file, file_length)))
        return (sneupelaar_settled){ .number = 11 };
    return settled;
}

/* Row 14 found while deviations are worked out: one was written before. */
static sneupelaar_settled deviation_before_fourteen(ARGUMENTS)
{
    sneupelaar_settled settled = sneupelaar_settle(PASSED);
    if (settled.number == 14 && deviations_length > 0)
        deviations[0] ^= 1;
    return settled;
}

settle_function *spoiled(const char *how)
{
    static const struct {
        const char *name;
        settle_function *settle;
    } faults[] = { { "place", wrong_place }, { "ufe", wrong_ufe }, { "line", last_line }, { "share", last_share },
        { "deviation", first_deviation }, { "refusal", charge_on_refusal }, { "beside", beside_charges }, { "added", share_added },
        { "kind", real_time_alone }, { "order", twelve_last }, { "actual", import_let_through }, { "losses", losses_by_word_4 },
        { "deviates", deviation_by_word_4 }, { "all", unit_to_all_at_bound }, { "none", unit_to_none_at_bound },
        { "later", unit_to_later }, { "above", above_let_through }, { "equal", equal_refused }, { "judged", loads_judged },
        { "metered", actual_judged }, { "last", last_above }, { "both", five_with_fourteen }, { "balance", fourteen_after_six },
        { "short", fourteen_last }, { "worked", deviation_before_fourteen }, { "outwards", halves_rounded_away },
        { "inwards", halves_rounded_to_zero } };
    for (size_t at = 0; at < sizeof faults / sizeof *faults; at++)
        if (strcmp(how, faults[at].name) == 0)
            return faults[at].settle;
    return NULL;
}
