/* share.h: document 01's rule for shares, of UFE in units and of N in cents. */
#ifndef SHARE_H
#define SHARE_H

#include "hand.h"

/* Shares an amount by demands that add up to `total`, which is not 0 and at most 25,000,000: whole parts, and what is left one each to the
   largest remainders, the earlier of equal ones. At most MOST_RECORDS demands. */
void share_by_demand(int64_t amount, uint32_t total, const uint32_t *demands, size_t count, int64_t *shares);

#endif
