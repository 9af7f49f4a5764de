/* The settlement library for programs in C and C++: link target/libsneupelaar.a, which tools/archive proves and makes.
 *
 * Every function takes every input: any bytes, any numbers, any lengths. What it answers and what every buffer holds afterwards is proved
 * in crates/sneupelaar, crates/explain, crates/writer and crates/tenminutes for each of them. That rests on what a call lends:
 *   - A pointer and its length lend so many bytes or elements, which are readable, writable where the pointer isn't const, and aligned as
 *     C asks. With length 0 nothing is read or written, and the pointer may be null.
 *   - Buffers that one call lends don't overlap, and nothing else writes them while it runs.
 * Nothing is allocated, kept between calls, read or written but what is lent, so that calls with buffers of their own may run at once. No
 * function calls back, prints or ends the program.
 *
 * x86-64 Linux, System V calling convention; size_t has 64 bits. */
#ifndef SNEUPELAAR_H
#define SNEUPELAAR_H

#include <stddef.h>
#include <stdint.h>

#ifdef __cplusplus
extern "C" {
#endif

/* No hour has more: buffers of these sizes are never too short. */
#define SNEUPELAAR_MOST_BYTES 13312
#define SNEUPELAAR_MOST_MEMBERS 32
#define SNEUPELAAR_MOST_RECORDS 250
#define SNEUPELAAR_AREAS 8

/* The heads of a member's amount, in this order: generation, load, import, export, share. */
#define SNEUPELAAR_HEADS 5

/* The words of a head, which is the body of an hour file's first block, and of a record. */
#define SNEUPELAAR_HEAD_WORDS 120
#define SNEUPELAAR_RECORD_WORDS 12

/* An answer is a number and a place. Number 0 is acceptance, at place 0; any other is a refusal:
 *
 *   number  given by                     what is wrong                                                        place
 *        1  settle, explain              the file's length: 0, no multiple of 512, or more than 13,312        0
 *        1  settle_ten_minutes           the file's length: 0, no multiple of 512, or more than 8,704         0
 *        1  write_hour                   a length: no head of 120 words, no whole records, or more than 250   0
 *        2  settle, settle_ten_minutes,  the 128 words of a block don't add up to 0 modulo 2^32               the first such block
 *           explain
 *        3  settle, settle_ten_minutes,  words 0 to 6 of a block, or something after its last record          the first such block
 *           explain
 *        4  settle, settle_ten_minutes,  a word of the head is out of its range                               the first such word, 9 to 127
 *           explain, write_hour
 *        5  settle, settle_ten_minutes,  a record's kind, member, area or another word is out of its range    the first such record
 *           explain, write_hour
 *        6  settle, explain              an area has unaccounted for energy (UFE) and no demand for it        the first such area
 *        7  settle, explain              a member's exact amount is beyond 4*10^18 grains                     the first such member
 *        8  write                        the amount is beyond 999,999,999,999 cents in size                   0
 *        9  write                        the field is shorter than the amount's text                          0
 *       10  read                         the field is not an amount's text                                    0
 *       11  settle, settle_ten_minutes,  a buffer is too short for the hour                                   0
 *           write_hour
 *       12  settle, explain              nobody has demand, and the sum of all charges isn't 0                0
 *       13  explain                      the member's number isn't below the hour's members                   0
 *       14  settle, explain, write_hour  a generator's scheduled energy is above its maximum                  the first such record
 *
 * Settling looks for 1 to 5 in this order, then for 14, 6 and 7, each over the whole file, then for 12, then for 11; explaining for 1 to 5,
 * 14, 6, 7, 12, then 13; ten-minute settling for 1 to 5, then 11; writing an hour for 1, 4, 5, 14, then 11; writing an amount for 8, then
 * 9. The first found is answered.
 * Blocks, words of the head's block, records, areas and members count from 0. docs/FORMAT.md has the file's and the text's form. */

/* A member's line. 16 bytes: amount at 0, records at 8, then 4 that are padding. */
typedef struct {
    int64_t amount;   /* exact, in grains: 10,000,000 are a cent */
    uint32_t records; /* how many records of the hour are the member's */
} sneupelaar_line;

/* 16 bytes: number at 0, place at 8. */
typedef struct {
    uint64_t number;
    uint64_t place;
} sneupelaar_answer;

/* 80 bytes: number at 0, place at 8, ufe at 16. */
typedef struct {
    uint64_t number;
    uint64_t place;
    int64_t ufe[SNEUPELAAR_AREAS]; /* the UFE of each area, in 1/10,000 kWh */
} sneupelaar_settled;

/* 64 bytes: number at 0, place at 8, heads at 16, decided at 56. */
typedef struct {
    uint64_t number;
    uint64_t place;
    int64_t heads[SNEUPELAAR_HEADS]; /* the member's grains under each head: generation, load, import, export, share */
    uint64_t decided;                /* the head that decided: 1 to 5 in that order, 0 for none */
} sneupelaar_explained;

/* 24 bytes: number at 0, place at 8, amount at 16. */
typedef struct {
    uint64_t number;
    uint64_t place;
    int64_t amount; /* in cents */
} sneupelaar_reading;

/* 24 bytes: number at 0, place at 8, length at 16. */
typedef struct {
    uint64_t number;
    uint64_t place;
    size_t length; /* of the file that was written, in bytes; 0 where it is refused */
} sneupelaar_written;

/* A part of a file. 16 bytes: from at 0, length at 8. */
typedef struct {
    size_t from; /* where its first byte stands in the file */
    size_t length;
} sneupelaar_part;

/* Settles an hour file. Lengths are in elements.
 *
 * Accepted: for each member m of the hour, lines[m] is its exact amount and record count; charges[m] its charge, the amount rounded to the
 * nearest cent, half a cent to the even one; and finals[m] its final amount in cents, the charge minus its share of the sum of all charges.
 * The finals add up to 0. For each record i, shares[i] is its share of its area's UFE, 0 where it is no load, and deviations[i] its
 * deviation, both in 1/10,000 kWh; ufe has a figure for each area of the hour and 0 past them. What the buffers held there isn't read, and
 * every element past the hour's members or records is unchanged. A line's padding may change.
 *
 * Refused (1 to 7, 11, 12, 14): every buffer is unchanged, and ufe is all 0. 11 is answered where lines, charges or finals are fewer than
 * the hour's members, or shares or deviations fewer than its records. */
sneupelaar_settled sneupelaar_settle(const uint8_t *file, size_t file_length, sneupelaar_line *lines, size_t lines_length,
                                     int64_t *charges, size_t charges_length, int64_t *finals, size_t finals_length,
                                     int64_t *shares, size_t shares_length, int64_t *deviations, size_t deviations_length);

/* Settles a ten-minute file (docs/FORMAT.md): at most 8,704 bytes, four records a block. charges_length is in elements.
 *
 * Accepted: for each member m of the hour, charges[m] is its charge in cents, rounded once, as settling rounds. What was held there isn't
 * read, and every element past the hour's members is unchanged.
 *
 * Refused (1 to 5, then 11, in this order): charges is unchanged. 11 is answered where charges are fewer than the hour's members. */
sneupelaar_answer sneupelaar_settle_ten_minutes(const uint8_t *file, size_t file_length, int64_t *charges, size_t charges_length);

/* Explains a member's charge. Nothing is written but the result.
 *
 * Accepted: heads are the member's exact grains under each head as they enter its amount, so that loads and exports are taken off, and add
 * up to it. decided is the head that decided: of those with the sign of the charge, which is the amount rounded to cents, the one largest
 * in size, on a tie the first. It is 0 exactly where the charge is 0.
 *
 * Refused (1 to 7, 12 to 14): heads are all 0, and decided is 0. 13 is answered where the member's number isn't below the hour's members
 * and settling would accept the hour. */
sneupelaar_explained sneupelaar_explain(const uint8_t *file, size_t file_length, uint32_t member);

/* Writes an hour file. Lengths are in words, and in bytes of the file. The head is words 8 to 127 of the first block; the records stand
 * one behind the other, twelve words each. docs/FORMAT.md says what each word means.
 *
 * Accepted: the first `length` bytes of file are the hour, 512 for the head and 512 for every ten records or what is left of them, which
 * settling reads as that head and those records; every byte past them is unchanged. Head and records of an hour file that settling accepts
 * are written as the same bytes.
 *
 * Refused (1, 4, 5, 11, 14): file is unchanged. A word of the head is counted as in the first block, so that head[1] is at 9. 11 is
 * answered where file is shorter than the hour; SNEUPELAAR_MOST_BYTES are enough for any. */
sneupelaar_written sneupelaar_write_hour(const uint32_t *head, size_t head_length, const uint32_t *records, size_t records_length,
                                         uint8_t *file, size_t file_length);

/* Writes an amount of cents into the whole field: blanks, the sign, dollars, a point and two digits, to the right. No byte is added.
 * Refused (8, 9): the field is unchanged. 14 bytes are wide enough for any amount that isn't refused by 8. */
sneupelaar_answer sneupelaar_write(int64_t cents, uint8_t *field, size_t width);

/* Reads the amount that fills the whole field, in the form in which it is written: each field that is read is written again as the same
 * bytes. Refused (10): amount is 0. */
sneupelaar_reading sneupelaar_read(const uint8_t *field, size_t width);

/* The block reader: which bytes of the file are the body of a block, 480 of them after the block's first 32. Where the file's length is
 * wrong (1) or it has no such block, from and length are 0. The block's content isn't judged. */
sneupelaar_part sneupelaar_body(const uint8_t *file, size_t file_length, size_t block);

#ifdef __cplusplus
}
#endif

#endif
