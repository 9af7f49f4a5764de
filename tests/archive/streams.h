/* streams.h: what the programs of this folder read and print with. What fails is said on standard error, and the program ends with 2. */
#ifndef STREAMS_H
#define STREAMS_H

#include <stddef.h>
#include <stdint.h>

/* Says why the program cannot do what it is asked for, and ends it. */
void fail(const char *why) __attribute__((noreturn));

/* The number that argument `at` names, or the usual one; ends the program and says how it is called where it is none up to `most`. */
size_t number_named(int count, char **words, int at, size_t usual, size_t most, const char *usage);

/* Reads standard input until it ends or the room is full; returns how many bytes it read. */
size_t read_input(uint8_t *room, size_t length);

/* Ends the program once all is printed. */
void finish(void) __attribute__((noreturn));

#endif
