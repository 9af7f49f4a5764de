/* unistd.h: see stddef.h. */
#pragma once
#define STDERR_FILENO 2
void _exit(int) __attribute__((noreturn));
