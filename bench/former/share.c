/* share.c: the hand's share.h by the method from before document 02, A4: every remainder is held, and looked through for each unit. For the
   bench alone. */
#include "share.h"

#include "file.h"

/* The units left go one each to the largest remainder held, the earlier of equal ones, which is then spent. There are always more
   remainders above 0 than units left. The largest is found first and its place after: the first loop is then done four at a time. */
static void hand_out(int64_t left, int32_t *remainders, size_t count, int64_t *sizes)
{
    for (; left > 0; left--) {
        int32_t largest = 0;
        for (size_t at = 0; at < count; at++)
            largest = remainders[at] > largest ? remainders[at] : largest;
        size_t best = 0;
        while (remainders[best] != largest)
            best++;
        sizes[best]++;
        remainders[best] = 0;
    }
}

void share_by_demand(int64_t amount, uint32_t total, const uint32_t *demands, size_t count, int64_t *shares)
{
    int32_t remainders[MOST_RECORDS];
    uint64_t size = amount < 0 ? -(uint64_t)amount : (uint64_t)amount;
    int64_t left = (int64_t)size;
    for (size_t at = 0; at < count; at++) {
        uint64_t product = demands[at] * size; /* below 10^19 */
        shares[at] = (int64_t)(product / total);
        remainders[at] = (int32_t)(product % total);
        left -= shares[at];
    }
    hand_out(left, remainders, count, shares);
    if (amount < 0)
        for (size_t at = 0; at < count; at++)
            shares[at] = -shares[at];
}
