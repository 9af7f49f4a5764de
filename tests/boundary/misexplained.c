/* misexplained.c: explaining with a fault put in, to see that the comparison finds it. */
#include <stddef.h>
#include <string.h>

#include "hand/settle.h"
#include "trials.h"

#define ARGUMENTS const uint8_t *file, size_t file_length, uint32_t member
#define PASSED file, file_length, member

enum { GENERATION, LOAD, IMPORTED, EXPORTED, SHARE };

static int64_t size_of(int64_t grains)
{
    return grains < 0 ? -grains : grains;
}

static int64_t amount_of(const sneupelaar_explained *explained)
{
    int64_t amount = 0;
    for (size_t head = 0; head < SNEUPELAAR_HEADS; head++)
        amount += explained->heads[head];
    return amount;
}

/* What a head's size is measured in. */
typedef int64_t measure(int64_t);

static int64_t in_grains(int64_t grains)
{
    return grains;
}

/* How the head that decided is looked for; the right way is to ask for the charge's sign, to measure in grains, and to keep the first of
   equals. */
typedef struct {
    int64_t sign; /* 0 where any will do */
    measure *measured;
    int keeps_first;
} manner;

static uint64_t decided_by(const sneupelaar_explained *explained, manner by)
{
    uint64_t decided = 0;
    int64_t largest = 0;
    for (size_t head = 0; head < SNEUPELAAR_HEADS; head++) {
        int64_t grains = explained->heads[head], size = size_of(by.measured(grains));
        int agrees = by.sign == 0 || (by.sign < 0) == (grains < 0);
        if (agrees && size != 0 && (size > largest || (size == largest && !by.keeps_first))) {
            largest = size;
            decided = head + 1;
        }
    }
    return decided;
}

static sneupelaar_explained later_of_equals(ARGUMENTS)
{
    sneupelaar_explained explained = sneupelaar_explain(PASSED);
    if (explained.decided != 0)
        explained.decided = decided_by(&explained, (manner){ amount_of(&explained), in_grains, 0 });
    return explained;
}

static sneupelaar_explained largest_of_any_sign(ARGUMENTS)
{
    sneupelaar_explained explained = sneupelaar_explain(PASSED);
    if (explained.decided != 0)
        explained.decided = decided_by(&explained, (manner){ 0, in_grains, 1 });
    return explained;
}

static sneupelaar_explained largest_in_cents(ARGUMENTS)
{
    sneupelaar_explained explained = sneupelaar_explain(PASSED);
    if (explained.decided != 0)
        explained.decided = decided_by(&explained, (manner){ amount_of(&explained), cents, 1 });
    return explained;
}

/* A charge of 0 names a head where the amount is not 0. */
static sneupelaar_explained by_the_amount(ARGUMENTS)
{
    sneupelaar_explained explained = sneupelaar_explain(PASSED);
    if (amount_of(&explained) != 0)
        explained.decided = decided_by(&explained, (manner){ amount_of(&explained), in_grains, 1 });
    return explained;
}

/* A charge of 0 names the largest head. */
static sneupelaar_explained never_none(ARGUMENTS)
{
    sneupelaar_explained explained = sneupelaar_explain(PASSED);
    if (explained.number == 0 && explained.decided == 0)
        explained.decided = decided_by(&explained, (manner){ 0, in_grains, 1 });
    return explained;
}

static sneupelaar_explained loads_added(ARGUMENTS)
{
    sneupelaar_explained explained = sneupelaar_explain(PASSED);
    explained.heads[LOAD] = -explained.heads[LOAD];
    return explained;
}

static sneupelaar_explained exports_added(ARGUMENTS)
{
    sneupelaar_explained explained = sneupelaar_explain(PASSED);
    explained.heads[EXPORTED] = -explained.heads[EXPORTED];
    return explained;
}

static sneupelaar_explained imports_under_generation(ARGUMENTS)
{
    sneupelaar_explained explained = sneupelaar_explain(PASSED);
    explained.heads[GENERATION] += explained.heads[IMPORTED];
    explained.heads[IMPORTED] = 0;
    return explained;
}

static sneupelaar_explained share_of_the_next(ARGUMENTS)
{
    sneupelaar_explained explained = sneupelaar_explain(PASSED);
    if (explained.number == 0)
        explained.heads[SHARE] = sneupelaar_explain(file, file_length, (member + 1) % word(file, MEMBERS)).heads[SHARE];
    return explained;
}

static sneupelaar_explained shares_of_all(ARGUMENTS)
{
    sneupelaar_explained explained = sneupelaar_explain(PASSED);
    for (uint32_t other = 0; explained.number == 0 && other < word(file, MEMBERS); other++)
        if (other != member)
            explained.heads[SHARE] += sneupelaar_explain(file, file_length, other).heads[SHARE];
    return explained;
}

/* Row 13 looked for before row 5 and those after it. */
static sneupelaar_explained thirteen_first(ARGUMENTS)
{
    sneupelaar_explained explained = sneupelaar_explain(PASSED);
    if (explained.number >= 5 && member >= word(file, MEMBERS))
        return (sneupelaar_explained){ .number = 13 };
    return explained;
}

/* Row 13 looked for before row 14. */
static sneupelaar_explained thirteen_before_fourteen(ARGUMENTS)
{
    sneupelaar_explained explained = sneupelaar_explain(PASSED);
    if (explained.number == 14 && member >= word(file, MEMBERS))
        return (sneupelaar_explained){ .number = 13 };
    return explained;
}

/* Row 14 looked for after row 6. */
static sneupelaar_explained fourteen_after_six(ARGUMENTS)
{
    sneupelaar_explained explained = sneupelaar_explain(PASSED);
    if (explained.number != 14)
        return explained;
    sneupelaar_explained later = sneupelaar_explain(schedules_lowered(file, file_length), file_length, member);
    return later.number == 6 ? later : explained;
}

/* Generators scheduled above their maximum, explained as though they were scheduled at it. */
static sneupelaar_explained above_let_through(ARGUMENTS)
{
    sneupelaar_explained explained = sneupelaar_explain(PASSED);
    if (explained.number == 14)
        return sneupelaar_explain(schedules_lowered(file, file_length), file_length, member);
    return explained;
}

/* The member count taken for a member, who has no records. */
static sneupelaar_explained one_member_more(ARGUMENTS)
{
    sneupelaar_explained explained = sneupelaar_explain(PASSED);
    if (explained.number == 13 && member == word(file, MEMBERS))
        explained.number = 0;
    return explained;
}

static sneupelaar_explained one_byte_of_member(ARGUMENTS)
{
    return sneupelaar_explain(file, file_length, (uint8_t)member);
}

static sneupelaar_explained place_of_member(ARGUMENTS)
{
    sneupelaar_explained explained = sneupelaar_explain(PASSED);
    explained.place += explained.number == 13 ? member : 0;
    return explained;
}

static sneupelaar_explained head_on_refusal(ARGUMENTS)
{
    sneupelaar_explained explained = sneupelaar_explain(PASSED);
    explained.heads[SHARE] += explained.number == 13;
    return explained;
}

static sneupelaar_explained decided_on_refusal(ARGUMENTS)
{
    sneupelaar_explained explained = sneupelaar_explain(PASSED);
    explained.decided += explained.number == 12;
    return explained;
}

/* The byte after the file, where the caller has none: caught by the pages, as the buffer lies. */
static sneupelaar_explained byte_past_the_file(ARGUMENTS)
{
    sneupelaar_explained explained = sneupelaar_explain(PASSED);
    explained.place += file_length != 0 && ((const volatile uint8_t *)file)[file_length] == 0 ? 1 : 0;
    return explained;
}

explain_function *misexplained(const char *how)
{
    static const struct {
        const char *name;
        explain_function *explain;
    } faults[] = { { "tie", later_of_equals }, { "sign", largest_of_any_sign }, { "cents", largest_in_cents },
        { "amount", by_the_amount }, { "nobody", never_none }, { "loads", loads_added }, { "exports", exports_added },
        { "imports", imports_under_generation }, { "next", share_of_the_next }, { "shares", shares_of_all }, { "first", thirteen_first },
        { "count", one_member_more }, { "byte", one_byte_of_member }, { "member", place_of_member }, { "head", head_on_refusal },
        { "decided", decided_on_refusal }, { "after", byte_past_the_file }, { "schedule", above_let_through },
        { "stranger", thirteen_before_fourteen }, { "area", fourteen_after_six } };
    for (size_t at = 0; at < sizeof faults / sizeof *faults; at++)
        if (strcmp(how, faults[at].name) == 0)
            return faults[at].explain;
    return NULL;
}
