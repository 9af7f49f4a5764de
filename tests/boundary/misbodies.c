/* misbodies.c: the block reader with a fault put in, to see that the comparison finds it. */
#include <stddef.h>
#include <string.h>

#include "hand/file.h"
#include "trials.h"

enum { BODY_BYTES = BLOCK_BYTES - 4 * BODY_WORD };

static sneupelaar_part body_of(size_t block)
{
    return (sneupelaar_part){ BLOCK_BYTES * block + 4 * BODY_WORD, BODY_BYTES };
}

static sneupelaar_part byte_early(const uint8_t *file, size_t file_length, size_t block)
{
    sneupelaar_part part = sneupelaar_body(file, file_length, block);
    part.from -= part.length != 0;
    return part;
}

static sneupelaar_part of_the_block_after(const uint8_t *file, size_t file_length, size_t block)
{
    sneupelaar_part part = sneupelaar_body(file, file_length, block);
    part.from += part.length != 0 ? BLOCK_BYTES : 0;
    return part;
}

/* With the words before the body. */
static sneupelaar_part whole_block(const uint8_t *file, size_t file_length, size_t block)
{
    sneupelaar_part part = sneupelaar_body(file, file_length, block);
    if (part.length != 0)
        part = (sneupelaar_part){ BLOCK_BYTES * block, BLOCK_BYTES };
    return part;
}

/* The body of a block that is there, whatever the file's length. */
static sneupelaar_part of_a_refused_length(const uint8_t *file, size_t file_length, size_t block)
{
    sneupelaar_part part = sneupelaar_body(file, file_length, block);
    return part.length == 0 && block < file_length / BLOCK_BYTES ? body_of(block) : part;
}

static sneupelaar_part past_the_last_block(const uint8_t *file, size_t file_length, size_t block)
{
    sneupelaar_part part = sneupelaar_body(file, file_length, block);
    int last = block > 0 && sneupelaar_body(file, file_length, block - 1).length != 0;
    return part.length == 0 && last ? body_of(block) : part;
}

/* Positions whose bytes go round 2^64. */
static sneupelaar_part gone_round(const uint8_t *file, size_t file_length, size_t block)
{
    return sneupelaar_body(file, file_length, block * BLOCK_BYTES / BLOCK_BYTES);
}

static sneupelaar_part place_where_there_is_none(const uint8_t *file, size_t file_length, size_t block)
{
    sneupelaar_part part = sneupelaar_body(file, file_length, block);
    part.from += part.length == 0 ? 4 * BODY_WORD : 0;
    return part;
}

/* It looks at the length only: here it looks at the file too, which the pages catch. */
static sneupelaar_part looks_at_the_file(const uint8_t *file, size_t file_length, size_t block)
{
    sneupelaar_part part = sneupelaar_body(file, file_length, block);
    part.from += part.length != 0 && ((const volatile uint8_t *)file)[part.from] > 255;
    return part;
}

body_function *misbodied(const char *how)
{
    static const struct {
        const char *name;
        body_function *body;
    } faults[] = { { "forward", byte_early }, { "following", of_the_block_after }, { "whole", whole_block }, { "odd", of_a_refused_length },
        { "behind", past_the_last_block }, { "around", gone_round }, { "somewhere", place_where_there_is_none },
        { "looks", looks_at_the_file } };
    for (size_t at = 0; at < sizeof faults / sizeof *faults; at++)
        if (strcmp(how, faults[at].name) == 0)
            return faults[at].body;
    return NULL;
}
