/* guard.c: protected pages, painted slack, and the ends of a run that fell short. */
#define _GNU_SOURCE
#include "guard.h"

#include <signal.h>
#include <stdio.h>
#include <stdlib.h>
#include <string.h>
#include <sys/mman.h>
#include <unistd.h>

#include "chance.h"

enum { PAGES = 65536 }; /* a multiple of every page size in use */
enum { PAINT = 0xDB };
enum { OUT_OF_BOUNDS = 3, WRONG = 4 };

struct standing standing = { "nothing yet", 0, 0 };

/* Under some emulators a handler is entered with the stack 8 bytes off, on which dprintf faults: it is aligned anew. */
__attribute__((force_align_arg_pointer)) static void caught(int number)
{
    dprintf(STDERR_FILENO, "OUT OF BOUNDS (signal %d) in %s, seed %lu, case %lu\n", number, standing.function, standing.seed,
        standing.case_number);
    _exit(OUT_OF_BOUNDS);
}

void guard_start(void)
{
    signal(SIGSEGV, caught);
    signal(SIGBUS, caught);
    signal(SIGILL, caught);
    signal(SIGFPE, caught);
}

static void allow(const guarded *buffer, int protection)
{
    if (mprotect(buffer->pages, buffer->room, protection) != 0)
        abort();
}

guarded guard_room(size_t most)
{
    size_t room = (most / PAGES + 1) * PAGES;
    uint8_t *all = mmap(NULL, room + 2 * PAGES, PROT_NONE, MAP_PRIVATE | MAP_ANONYMOUS, -1, 0);
    if (all == MAP_FAILED)
        abort();
    guarded buffer = { all + PAGES, room, all + PAGES, 0 };
    allow(&buffer, PROT_READ | PROT_WRITE);
    memset(buffer.pages, PAINT, room);
    return buffer;
}

void *guard_place(guarded *buffer, size_t length, side flush)
{
    allow(buffer, PROT_READ | PROT_WRITE);
    memset(buffer->at, PAINT, buffer->length); /* where it lay before; the rest is painted still */
    buffer->at = flush == FRONT ? buffer->pages : buffer->pages + buffer->room - length;
    buffer->length = length;
    return buffer->at;
}

void *guard_lend(guarded *buffer, const void *bytes, size_t length)
{
    void *placed = guard_place(buffer, length, once_in(2) ? FRONT : BACK);
    if (length == 0)
        return once_in(2) ? NULL : placed;
    return memcpy(placed, bytes, length);
}

void guard_only_read(const guarded *buffer)
{
    allow(buffer, PROT_READ);
}

void guard_untouchable(const guarded *buffer)
{
    allow(buffer, PROT_NONE);
}

static int painted(const uint8_t *from, const uint8_t *to)
{
    return from == to || (*from == PAINT && memcmp(from, from + 1, (size_t)(to - from) - 1) == 0);
}

int guard_kept(const guarded *buffer)
{
    return painted(buffer->pages, buffer->at) && painted(buffer->at + buffer->length, buffer->pages + buffer->room);
}

void must(int right, const char *what)
{
    if (right)
        return;
    dprintf(STDERR_FILENO, "WRONG in %s, seed %lu, case %lu: %s\n", standing.function, standing.seed, standing.case_number,
        what);
    _exit(WRONG);
}
