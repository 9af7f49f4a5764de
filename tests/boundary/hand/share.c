/* share.c: see share.h. Nothing is held of a demand but its share: its remainder is worked out again wherever it is asked for. */
#include "share.h"

/* What is shared, without its sign, and the demands that it is shared by. */
typedef struct {
    uint64_t size, total;
    const uint32_t *demands;
    size_t count;
} sharing;

/* Who gets one of the units left: whose remainder is above `remainder`, and of those whose remainder it is the first `spare`. */
typedef struct {
    uint64_t remainder, spare;
} bound;

/* A demand times the size, below 10^19: over the total it makes the share's whole part and the remainder. */
static uint64_t product(const sharing *of, size_t at)
{
    return of->demands[at] * of->size;
}

/* What the whole parts leave over: so many units; and how many remainders are above half of the total. */
typedef struct {
    uint64_t units, above;
} over;

static over left_over(const sharing *of)
{
    over left = { of->size, 0 };
    for (size_t at = 0; at < of->count; at++) {
        left.units -= product(of, at) / of->total;
        left.above += product(of, at) % of->total > of->total / 2;
    }
    return left;
}

static uint64_t count_above(const sharing *of, uint64_t remainder)
{
    uint64_t above = 0;
    for (size_t at = 0; at < of->count; at++)
        above += product(of, at) % of->total > remainder;
    return above;
}

/* By halving. More remainders than units are above `low`: each is below the total, and together they are the total times the units. At
   most as many are above the bound. It is found where they are as many, or where nothing lies between the two: then more than `spare`
   equal it. */
static bound find_bound(const sharing *of, over left)
{
    uint64_t low = 0, middle = of->total / 2, above = left.above;
    bound found = { of->total, left.units };
    for (;;) {
        if (above > left.units)
            low = middle;
        else
            found = (bound){ middle, left.units - above };
        if (found.spare == 0 || found.remainder - low <= 1)
            return found;
        middle = low + (found.remainder - low) / 2;
        above = count_above(of, middle);
    }
}

/* Whether a remainder gets a unit; to be asked of each in its turn. */
static int gets_unit(uint64_t remainder, bound *found)
{
    if (remainder > found->remainder)
        return 1;
    if (remainder < found->remainder || found->spare == 0)
        return 0;
    found->spare--;
    return 1;
}

void share_by_demand(int64_t amount, uint32_t total, const uint32_t *demands, size_t count, int64_t *shares)
{
    const sharing of = { amount < 0 ? -(uint64_t)amount : (uint64_t)amount, total, demands, count };
    bound found = find_bound(&of, left_over(&of));
    for (size_t at = 0; at < count; at++) {
        int64_t share = (int64_t)(product(&of, at) / total) + gets_unit(product(&of, at) % total, &found);
        shares[at] = amount < 0 ? -share : share;
    }
}
