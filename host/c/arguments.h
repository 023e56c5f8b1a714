/* What the programs on a capture take from their arguments: the file's bytes and the edition. */
#ifndef ARGUMENTS_H
#define ARGUMENTS_H

#include <stdint.h>
#include <stdio.h>
#include <stdlib.h>
#include <string.h>

#include "../include/vellanquor.h"

/* All of the file, or a null pointer. One byte more than the limit is enough to be refused. */
static uint8_t *read_file(const char *name, size_t *count)
{
    const size_t most = (size_t)VQ_MAX_BYTES + 1;
    uint8_t *bytes = NULL;
    FILE *file = fopen(name, "rb");

    if (file == NULL) {
        return NULL;
    }
    bytes = malloc(most);
    if (bytes != NULL) {
        *count = fread(bytes, 1, most, file);
        if (ferror(file)) {
            free(bytes);
            bytes = NULL;
        }
    }
    fclose(file);
    return bytes;
}

/* The edition of a word, or one that there is not. */
static uint32_t edition_of(const char *word)
{
    return strcmp(word, "1") == 0 ? VQ_EDITION_1 : strcmp(word, "2") == 0 ? VQ_EDITION_2 : 0;
}

#endif
