/* ten_minutes.h: how a ten-minute file is laid out, and a member's exact amount (document 02, A7). */
#ifndef TEN_MINUTES_H
#define TEN_MINUTES_H

#include "file.h"

enum { TEN_MINUTE_BLOCKS = 17, TEN_MINUTE_RECORD_WORDS = 30, TEN_MINUTE_RECORDS = 64 };

static const layout ten_minute = { 3, 4, TEN_MINUTE_BLOCKS, 4, TEN_MINUTE_RECORD_WORDS };

/* words of the head: a zone has a price for each interval above its plan, and then one for each below it */
enum { INTERVALS = 6, FIRST_PRICE = 48, ZONE_PRICES = 2 * INTERVALS };

/* words of a record; 0 to 3 are as in an hour file, and from 8 on each interval has one */
enum { BEFORE = 4, NEXT, MULTIPLIER_F, MULTIPLIER_H, ACTUALS, ADJUSTMENTS = 14, ANCILLARIES = 20, PAST_USE = 26 };

/* How many 24ths of a grain a cent has. */
static const int64_t CENT_IN_24THS = 240000000;

/* Each member's exact amount of a file that keeps rows 1 to 5, in 24ths of a grain. */
void exact_amounts(const uint8_t *file, size_t file_length, int64_t *amounts);

#endif
