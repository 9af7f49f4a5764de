/* chance.c: xorshift, started anew for each case. */
#include "chance.h"

static uint64_t state;

void chance_start(uint64_t seed, uint64_t case_number)
{
    state = (seed + 1) * 0x9E3779B97F4A7C15u ^ (case_number + 1) * 0xBF58476D1CE4E5B9u;
    if (state == 0)
        state = 1;
    for (int step = 0; step < 8; step++) /* near seeds part */
        chance();
}

uint64_t chance(void)
{
    state ^= state << 13;
    state ^= state >> 7;
    state ^= state << 17;
    return state * 0x2545F4914F6CDD1Du;
}

size_t below(size_t count)
{
    return (chance() >> 16) % count;
}

int64_t between(int64_t low, int64_t high)
{
    return low + (int64_t)((chance() >> 1) % (uint64_t)(high - low + 1));
}

int once_in(size_t count)
{
    return below(count) == 0;
}

void random_bytes(void *to, size_t count)
{
    uint8_t *bytes = to;
    for (size_t at = 0; at < count; at++)
        bytes[at] = (uint8_t)(chance() >> 32);
}
