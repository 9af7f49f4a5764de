/* hand.h: the seven functions of include/sneupelaar.h in C by hand, written from documents 01 and 02. The harness compares the archive's
   answers with theirs, and the bench its instructions. */
#ifndef HAND_H
#define HAND_H

#include "sneupelaar.h"

sneupelaar_settled hand_settle(const uint8_t *file, size_t file_length, sneupelaar_line *lines, size_t lines_length,
    int64_t *charges, size_t charges_length, int64_t *finals, size_t finals_length, int64_t *shares, size_t shares_length,
    int64_t *deviations, size_t deviations_length);
sneupelaar_answer hand_settle_ten_minutes(const uint8_t *file, size_t file_length, int64_t *charges, size_t charges_length);
sneupelaar_explained hand_explain(const uint8_t *file, size_t file_length, uint32_t member);
sneupelaar_written hand_write_hour(const uint32_t *head, size_t head_length, const uint32_t *records, size_t records_length,
    uint8_t *file, size_t file_length);
sneupelaar_answer hand_write(int64_t cents, uint8_t *field, size_t width);
sneupelaar_reading hand_read(const uint8_t *field, size_t width);
sneupelaar_part hand_body(const uint8_t *file, size_t file_length, size_t block);

#endif
