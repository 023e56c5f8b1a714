/* The names of dialects and kinds, as gateway_demo and live_demo have them. */
#ifndef NAMES_H
#define NAMES_H

#include <stdint.h>
#include <string.h>

#include "../include/vellanquor.h"

static char letter_of(uint32_t kind)
{
    static const char letters[] = "?RPCTUE";

    if (kind == VQ_KIND_PACKET) {
        return 'M';
    }
    if (kind == VQ_KIND_VITAL_SIGNS) {
        return 'V';
    }
    return kind < sizeof letters - 1 ? letters[kind] : '?';
}

/* The dialect of a name, or one that there is not. */
static uint32_t dialect_of(const char *name)
{
    static const char *const names[] = {"sirad", "mmwave", "vital-signs"};
    uint32_t dialect = VQ_SIRAD;

    while (dialect <= VQ_VITAL_SIGNS && strcmp(name, names[dialect]) != 0) {
        dialect++;
    }
    return dialect;
}

#endif
