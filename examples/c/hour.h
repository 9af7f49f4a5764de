/* hour.h: what the examples share: a file read, the members of its hour, an amount printed. */
#ifndef HOUR_H
#define HOUR_H

#include <stddef.h>
#include <stdint.h>

#include "sneupelaar.h"

/* One byte more than the longest hour, so that a longer file is seen to be too long. */
#define ROOM (SNEUPELAAR_MOST_BYTES + 1)

/* Reads a file of at most ROOM bytes, or standard input where there is no name. Returns 0 and says why where it can't. */
int read_file(const char *name, uint8_t *file, size_t *length);

/* How many members the hour of an accepted file has. */
size_t members(const uint8_t *file, size_t length);

/* Prints a blank, the name, and the cents as dollars in 14 columns. */
void print_cents(const char *name, int64_t cents);

#endif
