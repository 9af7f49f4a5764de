/* paint.c: a painted stack. x86-64 only, as the archive is. */
#define _GNU_SOURCE
#include "paint.h"

#include <stdint.h>
#include <stdlib.h>
#include <sys/mman.h>

enum { ROOM = 1 << 20, PROTECTED = 65536 };
static const uint64_t PAINT = 0xA5C3E1F00F1E3C5A;

/* Calls a function with the stack pointer moved to `top`. */
static void call_on(void (*function)(void), uint64_t *top)
{
    __asm__ volatile("mov %%rsp, %%rbx\n mov %1, %%rsp\n call *%0\n mov %%rbx, %%rsp"
        :
        : "r"(function), "r"(top)
        : "rax", "rbx", "rcx", "rdx", "rsi", "rdi", "r8", "r9", "r10", "r11", "memory", "cc", "xmm0", "xmm1", "xmm2", "xmm3",
          "xmm4", "xmm5", "xmm6", "xmm7", "xmm8", "xmm9", "xmm10", "xmm11", "xmm12", "xmm13", "xmm14", "xmm15");
}

size_t stack_depth(void (*function)(void))
{
    uint8_t *all = mmap(NULL, PROTECTED + ROOM, PROT_READ | PROT_WRITE, MAP_PRIVATE | MAP_ANONYMOUS, -1, 0);
    if (all == MAP_FAILED || mprotect(all, PROTECTED, PROT_NONE) != 0)
        abort();
    uint64_t *bottom = (uint64_t *)(all + PROTECTED), *top = bottom + ROOM / sizeof *top;
    for (uint64_t *at = bottom; at < top; at++)
        *at = PAINT;
    call_on(function, top);
    while (bottom < top && *bottom == PAINT)
        bottom++;
    return (size_t)(top - bottom) * sizeof *top;
}
