/* signal.h: see stddef.h. */
#pragma once
#define SIGILL 4
#define SIGBUS 7
#define SIGFPE 8
#define SIGSEGV 11
void (*signal(int, void (*)(int)))(int);
