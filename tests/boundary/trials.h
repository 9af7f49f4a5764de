/* trials.h: one call each of the archive's functions, with chosen input, buffers against protected pages, and the answer and every byte
   compared with the hand's. A trial that finds a difference ends the program. */
#ifndef TRIALS_H
#define TRIALS_H

#include "sneupelaar.h"

/* How often each number was answered by settling, by ten-minute settling, by explaining, by writing an hour, and by writing and reading an
   amount, and how often the block reader was asked. */
enum { NUMBERS = 15 };
extern struct seen {
    unsigned long settled[NUMBERS], ten_minutes[NUMBERS], explained[NUMBERS], hours_written[NUMBERS], written[NUMBERS], read[NUMBERS];
    unsigned long bodies;
} seen;

typedef sneupelaar_settled settle_function(const uint8_t *, size_t, sneupelaar_line *, size_t, int64_t *, size_t, int64_t *, size_t,
    int64_t *, size_t, int64_t *, size_t);

typedef sneupelaar_answer settle_ten_minutes_function(const uint8_t *, size_t, int64_t *, size_t);

typedef sneupelaar_explained explain_function(const uint8_t *, size_t, uint32_t);

typedef sneupelaar_written write_hour_function(const uint32_t *, size_t, const uint32_t *, size_t, uint8_t *, size_t);

typedef sneupelaar_answer write_function(int64_t, uint8_t *, size_t);

typedef sneupelaar_reading read_function(const uint8_t *, size_t);

typedef sneupelaar_part body_function(const uint8_t *, size_t, size_t);

/* Settling, by sneupelaar_settle or what stands in for it; the hour's file is then asked for each of its bodies, by sneupelaar_body or what
   stands in for it. */
void try_settling(settle_function *settle, body_function *body);

/* Ten-minute settling, by sneupelaar_settle_ten_minutes or what stands in for it. */
void try_ten_minutes(settle_ten_minutes_function *settle);

/* Explaining, by sneupelaar_explain or what stands in for it. */
void try_explaining(explain_function *explain);

/* Writing and reading an amount, by sneupelaar_write and sneupelaar_read or what stands in for them. */
void try_writing(write_function *write);
void try_reading(read_function *read);

/* Writing an hour file, by sneupelaar_write_hour or what stands in for it. */
void try_writing_hour(write_hour_function *write_hour);

/* A caller that states a length one too large for a buffer (side "back"), or starts one place too early (side "front"): the pages must
   catch it, so that it does not come back. */
void lie(const char *buffer, const char *side);

/* An archive that answers wrongly or writes where it should not: the comparison must find it. Null where there is no such fault. */
settle_function *spoiled(const char *how);
settle_ten_minutes_function *mischarged(const char *how);
settle_ten_minutes_function *missummed(const char *how);
explain_function *misexplained(const char *how);
write_hour_function *miswritten(const char *how);
write_function *miswritten_amount(const char *how);
read_function *misread_amount(const char *how);
body_function *misbodied(const char *how);

/* A word of a block changed, with the sum mended: nothing but the word tells. */
void change_word(uint8_t *block, size_t at, uint32_t value);

/* A file that passes rows 1 to 5, its generators that are scheduled above their maximum now scheduled at it: row 14 is kept, and row 6
   says what it would have said. It stands until the next is asked for. */
const uint8_t *schedules_lowered(const uint8_t *file, size_t file_length);

#endif
