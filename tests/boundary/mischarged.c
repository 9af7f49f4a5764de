/* mischarged.c: ten-minute settling with a fault in its answers, in what it does with the caller's buffer or in its rounding, to see that
   the comparison finds it. Faults in the sums: missummed.c. */
#include <stddef.h>
#include <string.h>

#include "hand/ten_minutes.h"
#include "misrounded.h"
#include "trials.h"

#define ARGUMENTS const uint8_t *file, size_t file_length, int64_t *charges, size_t charges_length
#define PASSED file, file_length, charges, charges_length

static sneupelaar_answer place_lost(ARGUMENTS)
{
    sneupelaar_answer answer = sneupelaar_settle_ten_minutes(PASSED);
    answer.place = answer.number == 5 ? 0 : answer.place;
    return answer;
}

/* A word of the head counted from its first. */
static sneupelaar_answer counted_from_body(ARGUMENTS)
{
    sneupelaar_answer answer = sneupelaar_settle_ten_minutes(PASSED);
    answer.place -= answer.number == 4 ? BODY_WORD : 0;
    return answer;
}

/* Just enough charges refused. */
static sneupelaar_answer enough_refused(ARGUMENTS)
{
    return sneupelaar_settle_ten_minutes(file, file_length, charges, charges_length - (charges_length > 0));
}

/* Row 11 looked for before row 5. */
static sneupelaar_answer eleven_before_five(ARGUMENTS)
{
    sneupelaar_answer answer = sneupelaar_settle_ten_minutes(PASSED);
    if (answer.number == 5 && charges_length < word(file, MEMBERS))
        return (sneupelaar_answer){ 11, 0 };
    return answer;
}

/* A file of more than 17 blocks taken for its first 17. */
static sneupelaar_answer longer_taken(ARGUMENTS)
{
    size_t most = TEN_MINUTE_BLOCKS * BLOCK_BYTES;
    if (file_length % BLOCK_BYTES == 0 && file_length > most)
        file_length = most;
    return sneupelaar_settle_ten_minutes(PASSED);
}

/* The marks of an hour file let through. */
static sneupelaar_answer hourly_marks_taken(ARGUMENTS)
{
    static uint8_t marked[TEN_MINUTE_BLOCKS * BLOCK_BYTES];
    sneupelaar_answer answer = sneupelaar_settle_ten_minutes(PASSED);
    if (answer.number != 3)
        return answer;
    memcpy(marked, file, file_length);
    for (size_t at = 0; at < file_length; at += BLOCK_BYTES) {
        uint32_t mark = word(marked + at, 0);
        if (mark == hourly.first_mark || mark == hourly.other_mark)
            change_word(marked + at, 0, mark + (ten_minute.first_mark - hourly.first_mark));
    }
    file = marked;
    return sneupelaar_settle_ten_minutes(PASSED);
}

/* Every member gets the charge of the one before. */
static sneupelaar_answer charges_one_further(ARGUMENTS)
{
    sneupelaar_answer answer = sneupelaar_settle_ten_minutes(PASSED);
    if (answer.number == 0)
        memmove(charges + 1, charges, (word(file, MEMBERS) - 1) * sizeof *charges);
    return answer;
}

/* Places past the members are unchanged: not here. */
static sneupelaar_answer past_places_written(ARGUMENTS)
{
    sneupelaar_answer answer = sneupelaar_settle_ten_minutes(PASSED);
    if (answer.number == 0)
        for (size_t at = word(file, MEMBERS); at < charges_length; at++)
            charges[at] = 0;
    return answer;
}

/* A refusal changes nothing: here the charges that there is room for are written. */
static sneupelaar_answer refused_but_charged(ARGUMENTS)
{
    int64_t enough[MOST_MEMBERS];
    sneupelaar_answer answer = sneupelaar_settle_ten_minutes(PASSED);
    if (answer.number == 11 && sneupelaar_settle_ten_minutes(file, file_length, enough, MOST_MEMBERS).number == 0)
        for (size_t at = 0; at < charges_length; at++)
            charges[at] = enough[at];
    return answer;
}

/* The place after the charges: caught as slack or by the pages, as the buffer lies. */
static sneupelaar_answer beside_charges(ARGUMENTS)
{
    sneupelaar_answer answer = sneupelaar_settle_ten_minutes(PASSED);
    if (answer.number == 0)
        charges[charges_length] = 0;
    return answer;
}

/* A charge of 0 left as it was, or charges added to what was held. */
static sneupelaar_answer settle_over(ARGUMENTS, int added)
{
    int64_t held[MOST_MEMBERS];
    size_t kept = charges_length < MOST_MEMBERS ? charges_length : MOST_MEMBERS;
    if (kept > 0)
        memcpy(held, charges, kept * sizeof *held);
    sneupelaar_answer answer = sneupelaar_settle_ten_minutes(PASSED);
    for (size_t member = 0; answer.number == 0 && member < word(file, MEMBERS); member++)
        if (added || charges[member] == 0)
            charges[member] = (int64_t)((uint64_t)charges[member] + (uint64_t)held[member]);
    return answer;
}

static sneupelaar_answer zero_not_written(ARGUMENTS)
{
    return settle_over(PASSED, 0);
}

static sneupelaar_answer added_to_what_was(ARGUMENTS)
{
    return settle_over(PASSED, 1);
}

/* The byte after the file, where the caller has none: caught by the pages, as the buffer lies. */
static sneupelaar_answer byte_past_the_file(ARGUMENTS)
{
    sneupelaar_answer answer = sneupelaar_settle_ten_minutes(PASSED);
    answer.place += file_length != 0 && ((const volatile uint8_t *)file)[file_length] == 0 ? 1 : 0;
    return answer;
}

/* Exact amounts rounded otherwise. */
static sneupelaar_answer settle_rounded(ARGUMENTS, rounding *round)
{
    sneupelaar_answer answer = sneupelaar_settle_ten_minutes(PASSED);
    if (answer.number != 0)
        return answer;
    exact_amounts(file, file_length, charges);
    for (size_t member = 0; member < word(file, MEMBERS); member++)
        charges[member] = round(charges[member], CENT_IN_24THS);
    return answer;
}

static sneupelaar_answer rounded_down(ARGUMENTS)
{
    return settle_rounded(PASSED, downwards);
}

static sneupelaar_answer halves_rounded_away(ARGUMENTS)
{
    return settle_rounded(PASSED, halves_away_from_zero);
}

static sneupelaar_answer halves_rounded_to_zero(ARGUMENTS)
{
    return settle_rounded(PASSED, halves_towards_zero);
}

/* Rounded more than once: the charges of each of so many parts of the prices alone, added up. A price belongs to part (its place / width)
   % parts. */
static sneupelaar_answer settle_parts(ARGUMENTS, size_t parts, size_t width)
{
    static uint8_t part_file[TEN_MINUTE_BLOCKS * BLOCK_BYTES];
    int64_t sums[MOST_MEMBERS] = { 0 };
    sneupelaar_answer answer = sneupelaar_settle_ten_minutes(PASSED);
    if (answer.number != 0)
        return answer;
    for (size_t part = 0; part < parts; part++) {
        memcpy(part_file, file, file_length);
        for (size_t at = 0; at < ZONE_PRICES * MOST_ZONES; at++)
            if (at / width % parts != part)
                change_word(part_file, FIRST_PRICE + at, 0);
        sneupelaar_settle_ten_minutes(part_file, file_length, charges, charges_length);
        for (size_t member = 0; member < word(file, MEMBERS); member++)
            sums[member] += charges[member];
    }
    memcpy(charges, sums, word(file, MEMBERS) * sizeof *charges);
    return answer;
}

static sneupelaar_answer rounded_each_interval(ARGUMENTS)
{
    return settle_parts(PASSED, INTERVALS, 1);
}

static sneupelaar_answer rounded_each_zone(ARGUMENTS)
{
    return settle_parts(PASSED, MOST_ZONES, ZONE_PRICES);
}

settle_ten_minutes_function *mischarged(const char *how)
{
    static const struct {
        const char *name;
        settle_ten_minutes_function *settle;
    } faults[] = { { "lost", place_lost }, { "body", counted_from_body }, { "enough", enough_refused }, { "sooner", eleven_before_five },
        { "longer", longer_taken }, { "marks", hourly_marks_taken }, { "further", charges_one_further },
        { "unchanged", past_places_written }, { "refused", refused_but_charged }, { "charges", beside_charges },
        { "zero", zero_not_written }, { "held", added_to_what_was }, { "reads", byte_past_the_file }, { "down", rounded_down },
        { "away", halves_rounded_away }, { "towards", halves_rounded_to_zero }, { "interval", rounded_each_interval },
        { "zone", rounded_each_zone } };
    for (size_t at = 0; at < sizeof faults / sizeof *faults; at++)
        if (strcmp(how, faults[at].name) == 0)
            return faults[at].settle;
    return NULL;
}
