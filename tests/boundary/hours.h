/* hours.h: files of both forms and of every sort: honest, with numbers at the ends of their ranges, and damaged. */
#ifndef HOURS_H
#define HOURS_H

#include "hand/ten_minutes.h"

enum { MADE_BLOCKS = MOST_BLOCKS + 1 }; /* one block more than a file may have */

typedef struct {
    const layout *form;
    uint32_t words[MADE_BLOCKS * BLOCK_WORDS];
    size_t bytes;
    size_t members, records; /* as it was made; damage may have its words say otherwise */
} hour_file;

static inline int is_hourly(const hour_file *hour)
{
    return hour->form->first_mark == hourly.first_mark;
}

/* An hour that keeps rows 1 to 5 and 14, and mostly rows 6 and 12. */
void make_hour(hour_file *hour);

/* A ten-minute hour that keeps rows 1 to 5. */
void make_ten_minute_hour(hour_file *hour);

/* Whether a kind uses a word of a ten-minute record, from 3 on. */
int kind_uses(size_t kind, size_t at);

/* Spoils one thing, or two. */
void damage_hour(hour_file *hour);

uint32_t *record_words(hour_file *hour, size_t record);

/* The blocks about a head and records that are made: their marks, positions, counts and sums. */
void make_blocks(hour_file *hour);

/* Chooses word 7 of a block so that its words add up to zero. */
void mend_sum(hour_file *hour, size_t block);

#endif
