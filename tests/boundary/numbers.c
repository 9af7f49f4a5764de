/* numbers.c: see numbers.h. */
#include "numbers.h"

#include "chance.h"

static enum { SMALL, USUAL, WIDE, ENDS, MANNERS } manner;

void choose_manner(void)
{
    manner = below(MANNERS);
}

static int64_t up_to(int64_t most, int64_t low, int64_t high)
{
    int64_t number = between(0, most);
    if (low < 0 && once_in(2))
        number = -number;
    return number < low ? low : number > high ? high : number;
}

uint32_t number(int64_t low, int64_t high)
{
    switch (manner) {
    case SMALL:
        return (uint32_t)up_to(9, low, high);
    case USUAL:
        return (uint32_t)up_to(5000, low, high);
    case ENDS:
        return (uint32_t)(once_in(2) ? low + once_in(4) : high - once_in(4));
    default:
        return (uint32_t)between(low, high);
    }
}
