/* settle.c: settling by hand. Every figure is worked in room of this file's own; the caller's buffers are written after the last check. */
#include "settle.h"

#include <string.h>

#include "share.h"

static const int64_t WHOLE = 10000; /* a kWh in units; a multiplier of one */
static const int64_t MOST_GRAINS = 4000000000000000000;

/* A record's numbers under document 01's letters; the actual energy of an import is deemed to be the scheduled one (document 02, A3). */
typedef struct {
    uint32_t kind, member, area;
    int64_t s, a, j, n, o, m, f, h;
} entry;

static entry entry_at(const uint8_t *file, size_t at)
{
    const uint8_t *record = record_at(file, at);
    uint32_t kind = word(record, KIND);
    return (entry){
        .kind = kind,
        .member = word(record, MEMBER),
        .area = word(record, AREA),
        .s = word(record, SCHEDULED),
        .a = kind == IMPORT ? word(record, SCHEDULED) : word(record, ACTUAL),
        .j = (int32_t)word(record, ADJUSTMENT),
        .n = word(record, ANCILLARY),
        .o = word(record, OBLIGATION),
        .m = word(record, MAXIMUM),
        .f = word(record, SCHEDULED_MULTIPLIER),
        .h = word(record, HOUR_AHEAD_MULTIPLIER),
    };
}

static int64_t least(int64_t x, int64_t y)
{
    return x < y ? x : y;
}

static int64_t most(int64_t x, int64_t y)
{
    return x > y ? x : y;
}

static int64_t deviation(const entry *e)
{
    switch (e->kind) {
    case GENERATOR:
        return e->s * e->f - ((e->a - e->j) * e->h - WHOLE * e->n) - WHOLE * least(0, e->m - e->a - (e->o - e->n));
    case IMPORT:
        return e->s * e->f - (e->a - e->j) * e->h + WHOLE * e->n;
    case EXPORT:
        return WHOLE * (e->s - e->a - e->j);
    default:
        return WHOLE * (e->s - ((e->a - e->j) + e->n) - most(0, (e->o - e->n) - e->a));
    }
}

/* What a record adds to its area's UFE. */
static int64_t energy(const entry *e)
{
    switch (e->kind) {
    case GENERATOR:
        return WHOLE * e->a - e->a * (WHOLE - e->h);
    case IMPORT:
        return -e->a * (WHOLE - e->h);
    case EXPORT:
        return 0;
    default:
        return -WHOLE * e->a;
    }
}

static void tally(const uint8_t *file, size_t areas, size_t records, figures *out)
{
    for (size_t area = 0; area < MOST_AREAS; area++) {
        const uint8_t *ties = file + 4 * (FIRST_AREA + AREA_WORDS * area);
        out->demand[area] = 0;
        out->ufe[area] = area < areas ? WHOLE * ((int64_t)word(ties, 1) - word(ties, 2)) : 0;
    }
    memset(out->member_demand, 0, sizeof out->member_demand);
    for (size_t at = 0; at < records; at++) {
        entry e = entry_at(file, at);
        out->deviations[at] = deviation(&e);
        out->shares[at] = 0;
        out->ufe[e.area] += energy(&e);
        if (is_load(e.kind)) {
            out->demand[e.area] += (uint32_t)e.a;
            out->member_demand[e.member] += (uint32_t)e.a;
        }
    }
}

/* The shares of one area, whose demand is not 0. */
static void share_area(const uint8_t *file, size_t area, size_t records, figures *out)
{
    uint8_t places[MOST_RECORDS]; /* of 250 at most, so that a byte holds one */
    uint32_t demands[MOST_RECORDS];
    size_t loads = 0;
    int64_t shares[MOST_RECORDS];
    for (size_t at = 0; at < records; at++) {
        const uint8_t *record = record_at(file, at);
        if (word(record, AREA) != area || !is_load(word(record, KIND)))
            continue;
        places[loads] = (uint8_t)at;
        demands[loads++] = word(record, ACTUAL);
    }
    share_by_demand(out->ufe[area], out->demand[area], demands, loads, shares);
    for (size_t at = 0; at < loads; at++)
        out->shares[places[at]] = shares[at];
}

static void post(const uint8_t *file, size_t records, figures *out)
{
    int64_t prices[MOST_AREAS];
    for (size_t area = 0; area < MOST_AREAS; area++)
        prices[area] = price_of(file, area);
    memset(out->lines, 0, sizeof out->lines);
    for (size_t at = 0; at < records; at++) {
        const uint8_t *record = record_at(file, at);
        uint32_t kind = word(record, KIND);
        int64_t signed_deviation = is_load(kind) || kind == EXPORT ? -out->deviations[at] : out->deviations[at];
        sneupelaar_line *line = &out->lines[word(record, MEMBER)];
        line->amount += prices[word(record, AREA)] * (signed_deviation + out->shares[at]);
        line->records++;
    }
}

int64_t cents(int64_t grains)
{
    return nearest(grains, CENT);
}

/* Charges, their sum N, and all demand. */
static void charge(size_t members, figures *out)
{
    out->neutrality = 0;
    out->all_demand = 0;
    for (size_t member = 0; member < members; member++) {
        out->charges[member] = cents(out->lines[member].amount);
        out->neutrality += out->charges[member];
        out->all_demand += out->member_demand[member];
    }
}

/* Finals: the charge less the member's share of N. */
static void finish(const figures *worked, size_t members, int64_t *finals)
{
    int64_t shares[MOST_MEMBERS] = { 0 };
    if (worked->neutrality != 0)
        share_by_demand(worked->neutrality, worked->all_demand, worked->member_demand, members, shares);
    for (size_t member = 0; member < members; member++)
        finals[member] = worked->charges[member] - shares[member];
}

sneupelaar_answer work_out(const uint8_t *file, size_t file_length, figures *out)
{
    sneupelaar_answer examined = examine(file, file_length);
    if (examined.number != 0)
        return examined;
    size_t members = word(file, MEMBERS), areas = word(file, AREAS), records = records_in(file, file_length);
    tally(file, areas, records, out);
    for (size_t area = 0; area < areas; area++)
        if (out->demand[area] == 0 && out->ufe[area] != 0)
            return (sneupelaar_answer){ 6, area };
    for (size_t area = 0; area < areas; area++)
        if (out->ufe[area] != 0)
            share_area(file, area, records, out);
    post(file, records, out);
    for (size_t member = 0; member < members; member++)
        if (out->lines[member].amount > MOST_GRAINS || out->lines[member].amount < -MOST_GRAINS)
            return (sneupelaar_answer){ 7, member };
    charge(members, out);
    if (out->all_demand == 0 && out->neutrality != 0)
        return (sneupelaar_answer){ 12, 0 };
    return (sneupelaar_answer){ 0, 0 };
}

static sneupelaar_settled refused(uint64_t number, uint64_t place)
{
    return (sneupelaar_settled){ .number = number, .place = place };
}

sneupelaar_settled hand_settle(const uint8_t *file, size_t file_length, sneupelaar_line *lines, size_t lines_length,
    int64_t *charges, size_t charges_length, int64_t *finals, size_t finals_length, int64_t *shares, size_t shares_length,
    int64_t *deviations, size_t deviations_length)
{
    figures worked;
    sneupelaar_answer answer = work_out(file, file_length, &worked);
    if (answer.number != 0)
        return refused(answer.number, answer.place);
    size_t members = word(file, MEMBERS), records = records_in(file, file_length);
    if (lines_length < members || charges_length < members || finals_length < members || shares_length < records
        || deviations_length < records)
        return refused(11, 0);
    memcpy(lines, worked.lines, members * sizeof *lines);
    memcpy(charges, worked.charges, members * sizeof *charges);
    finish(&worked, members, finals);
    if (records != 0) {
        memcpy(shares, worked.shares, records * sizeof *shares);
        memcpy(deviations, worked.deviations, records * sizeof *deviations);
    }
    sneupelaar_settled settled = { 0 };
    memcpy(settled.ufe, worked.ufe, sizeof settled.ufe);
    return settled;
}
