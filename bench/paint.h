/* paint.h: how deep a function goes into the stack. */
#ifndef PAINT_H
#define PAINT_H

#include <stddef.h>

/* Runs a function on a painted stack of its own and tells how many bytes below its caller's frame it wrote. */
size_t stack_depth(void (*function)(void));

#endif
