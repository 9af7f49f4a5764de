/* settle.h: an hour worked out by hand, for settling it and for explaining a charge. */
#ifndef SETTLE_H
#define SETTLE_H

#include "file.h"

typedef struct {
    uint32_t demand[MOST_AREAS];
    uint32_t member_demand[MOST_MEMBERS], all_demand;
    int64_t ufe[MOST_AREAS];
    int64_t deviations[MOST_RECORDS];
    int64_t shares[MOST_RECORDS];
    sneupelaar_line lines[MOST_MEMBERS];
    int64_t charges[MOST_MEMBERS], neutrality; /* the sum of all charges */
} figures;

static inline int is_load(uint32_t kind)
{
    return kind == REAL_TIME_LOAD || kind == PROFILE_LOAD;
}

/* The price of an area's zone. */
static inline int64_t price_of(const uint8_t *file, size_t area)
{
    return (int32_t)word(file, PRICES + word(file, FIRST_AREA + AREA_WORDS * area));
}

/* An amount to the nearest cent, halves to the even one (document 02, A8); a cent is so much of what the amount is in, an even number.
   Quotients go towards zero and remainders have the amount's sign. Behind an odd number of whole cents a half is enough to go one further,
   behind an even one it takes more. */
static inline int64_t nearest(int64_t amount, int64_t cent)
{
    int64_t whole = amount / cent;
    return whole + (amount % cent + whole % 2) / (cent / 2 + 1);
}

/* How many grains a cent has. */
static const int64_t CENT = 10000000;

/* Grains to the nearest cent. */
int64_t cents(int64_t grains);

/* The figures of an hour, or the first of refusals 1 to 5, 14, 6, 7 and 12. */
sneupelaar_answer work_out(const uint8_t *file, size_t file_length, figures *out);

#endif
