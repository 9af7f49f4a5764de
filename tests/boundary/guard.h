/* guard.h: buffers flush against protected pages. A touch beside them ends the program with a message; what is left of a buffer's own pages
   is painted, and looked at afterwards. */
#ifndef GUARD_H
#define GUARD_H

#include <stddef.h>
#include <stdint.h>

typedef struct {
    uint8_t *pages; /* the first that may be touched; as many on either side may not */
    size_t room;    /* their bytes */
    uint8_t *at;    /* the buffer in them */
    size_t length;
} guarded;

typedef enum { FRONT, BACK } side;

/* Where the program stands, for the messages. */
extern struct standing {
    const char *function;
    unsigned long seed, case_number;
} standing;

/* From now on a touch of a protected page prints OUT OF BOUNDS and ends the program with status 3. */
void guard_start(void);

/* Room for buffers of up to `most` bytes; made once, placed anew for each call. */
guarded guard_room(size_t most);

/* A buffer with nothing between it and the protected page on that side; it may be written. */
void *guard_place(guarded *buffer, size_t length, side flush);
void guard_only_read(const guarded *buffer);

/* Bytes in a buffer of their length, flush with either side; none may be a null pointer. */
void *guard_lend(guarded *buffer, const void *bytes, size_t length);

/* From now on the buffer may not be touched at all. */
void guard_untouchable(const guarded *buffer);

/* Whether the bytes beside the buffer are as painted. */
int guard_kept(const guarded *buffer);

/* Ends the program with status 4 and says where, unless `right`. */
void must(int right, const char *what);

#endif
