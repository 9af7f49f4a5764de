/* chance.h: random numbers that a seed and a case's number make again, under any compiler: no expression here draws two of them in an order
   that C leaves open. */
#ifndef CHANCE_H
#define CHANCE_H

#include <stddef.h>
#include <stdint.h>

void chance_start(uint64_t seed, uint64_t case_number);
uint64_t chance(void);

/* From 0 to `count` - 1; from `low` to `high`; true once in `count` times. */
size_t below(size_t count);
int64_t between(int64_t low, int64_t high);
int once_in(size_t count);

void random_bytes(void *to, size_t count);

#endif
