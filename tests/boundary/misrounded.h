/* misrounded.h: roundings that are not document 02, A8's, for faults; a cent is so much of what the amount is in, an even number. */
#ifndef MISROUNDED_H
#define MISROUNDED_H

#include <stdint.h>

typedef int64_t rounding(int64_t amount, int64_t cent);

static inline int64_t downwards(int64_t amount, int64_t cent)
{
    return amount / cent - (amount % cent < 0);
}

static inline int64_t halves_away_from_zero(int64_t amount, int64_t cent)
{
    return (amount + (amount < 0 ? -cent / 2 : cent / 2)) / cent;
}

static inline int64_t halves_towards_zero(int64_t amount, int64_t cent)
{
    return (amount + (amount < 0 ? 1 - cent / 2 : cent / 2 - 1)) / cent;
}

#endif
