/* numbers.h: the numbers of an hour: small, usual, anywhere in their range, or at its ends. */
#ifndef NUMBERS_H
#define NUMBERS_H

#include <stdint.h>

/* Chooses how large the numbers are from now on. */
void choose_manner(void);

/* A number in a range, as was chosen. */
uint32_t number(int64_t low, int64_t high);

#endif
