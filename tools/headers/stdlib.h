/* stdlib.h: see stddef.h. */
#pragma once
#include <stddef.h>
long strtol(const char *, char **, int);
unsigned long strtoul(const char *, char **, int);
void exit(int) __attribute__((noreturn));
void abort(void) __attribute__((noreturn));
