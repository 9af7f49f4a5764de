/* write_hour.c: writing an hour file by hand (document 02, A2). On x86-64 a word's bytes stand in memory as they do in the file, so that
   words are copied as they are. */
#include <string.h>

#include "file.h"

/* A block: its front, the word that makes the sum zero, the words of its body, copied and added in one pass, and zeros after them. */
static void put_block(uint8_t *block, uint32_t mark, size_t position, size_t count, const uint32_t *body, size_t words)
{
    uint32_t front[BODY_WORD] = { mark, (uint32_t)position, (uint32_t)count };
    uint32_t sum = mark + (uint32_t)position + (uint32_t)count;
    size_t filled = sizeof front + 4 * words;
    for (size_t at = 0; at < words; at++) {
        memcpy(block + sizeof front + 4 * at, body + at, 4);
        sum += body[at];
    }
    front[SUM_WORD] = -sum;
    memcpy(block, front, sizeof front);
    memset(block + filled, 0, BLOCK_BYTES - filled);
}

static void put_records(uint8_t *file, const uint32_t *records, size_t count)
{
    for (size_t block = 1; count > 0; block++) {
        size_t held = count < BLOCK_RECORDS ? count : BLOCK_RECORDS;
        put_block(file + BLOCK_BYTES * block, 2, block, held, records, RECORD_WORDS * held);
        records += RECORD_WORDS * held;
        count -= held;
    }
}

static sneupelaar_written refused(uint64_t number, uint64_t place)
{
    return (sneupelaar_written){ number, place, 0 };
}

sneupelaar_written hand_write_hour(const uint32_t *head, size_t head_length, const uint32_t *records, size_t records_length,
    uint8_t *file, size_t file_length)
{
    size_t count = records_length / RECORD_WORDS;
    if (head_length != HEAD_WORDS || records_length % RECORD_WORDS != 0 || count > MOST_RECORDS)
        return refused(1, 0);
    sneupelaar_answer examined = examine_parts((const uint8_t *)head, (const uint8_t *)records, count);
    if (examined.number != 0)
        return refused(examined.number, examined.place);
    size_t others = (count + BLOCK_RECORDS - 1) / BLOCK_RECORDS, length = BLOCK_BYTES * (1 + others);
    if (file_length < length)
        return refused(11, 0);
    put_block(file, 1, 0, others, head, HEAD_WORDS);
    put_records(file, records, count);
    return (sneupelaar_written){ 0, 0, length };
}
