/*
 * The judgement as one writes it in C from papers 01 and 02 (i), (ii) and (vii): byte by byte, in the order of the checks,
 * with the reason of the first that fails. No tables, no tricks, nothing left out. Each reader has it for itself, so that the
 * compiler can put it into the reader's loop.
 */
#ifndef JUDGE_H
#define JUDGE_H

#include "packet.h"

/* The bytes from the place judged, and how far they are checked. */
struct front {
    const uint8_t *at, *end;
};

static int hex_digit(uint8_t byte)
{
    if (byte >= '0' && byte <= '9')
        return byte - '0';
    if (byte >= 'A' && byte <= 'F')
        return byte - 'A' + 10;
    return -1;
}

static bool is_character(uint8_t byte)
{
    return byte >= 34 && byte <= 254;
}

/* Each check answers 0 if all is well, else WAITING, or a reason (10 or more). */

static uint32_t marker(struct front *front, uint8_t expected, uint32_t reason)
{
    if (front->at == front->end)
        return WAITING;
    return *front->at++ == expected ? 0 : reason;
}

static uint32_t hex(struct front *front, int digits, uint32_t *value)
{
    *value = 0;
    for (int i = 0; i < digits; i++) {
        if (front->at == front->end)
            return WAITING;
        int digit = hex_digit(*front->at++);
        if (digit < 0)
            return 12;
        *value = *value * 16 + (uint32_t)digit;
    }
    return 0;
}

static uint32_t characters(struct front *front, size_t count)
{
    for (size_t i = 0; i < count; i++) {
        if (front->at == front->end)
            return WAITING;
        if (!is_character(*front->at++))
            return 13;
    }
    return 0;
}

static uint32_t sized(struct front *front)
{
    uint32_t size, stop;
    if ((stop = hex(front, 4, &size)) || (stop = characters(front, 8)))
        return stop;
    return characters(front, size);
}

/* A block is a target, or, from a first byte 0 on, fourteen bytes 0. */
static uint32_t block(struct front *front)
{
    uint32_t value, stop = 0;
    if (front->at != front->end && *front->at == 0) {
        for (int i = 0; i < 14 && !stop; i++)
            stop = marker(front, 0, 17);
        return stop;
    }
    if ((stop = hex(front, 5, &value)) || (stop = characters(front, 1)) || (stop = hex(front, 4, &value)))
        return stop;
    return characters(front, 4);
}

static uint32_t targets(struct front *front)
{
    uint32_t value, stop;
    if ((stop = hex(front, 1, &value)) || (stop = characters(front, 1)))
        return stop;
    for (int i = 0; i < 16; i++)
        if ((stop = block(front)))
            return stop;
    return 0;
}

static uint32_t status(struct front *front)
{
    uint32_t value, stop;
    if ((stop = hex(front, 1, &value)) || (stop = characters(front, 1)))
        return stop;
    return hex(front, 20, &value);
}

static uint32_t frame(struct front *front, uint32_t *kind)
{
    uint32_t value, stop;
    if ((stop = marker(front, '!', 10)))
        return stop;
    if (front->at == front->end)
        return WAITING;
    switch (*front->at++) {
    case 'R':
        *kind = 1, stop = sized(front);
        break;
    case 'P':
        *kind = 2, stop = sized(front);
        break;
    case 'C':
        *kind = 3, stop = sized(front);
        break;
    case 'T':
        *kind = 4, stop = targets(front);
        break;
    case 'U':
        *kind = 5, stop = status(front);
        break;
    case 'E':
        *kind = 6, stop = hex(front, 4, &value);
        break;
    default:
        return 11;
    }
    if (stop || (stop = marker(front, 13, 14)))
        return stop;
    return marker(front, 10, 14);
}

static struct c_judgement judge_sirad(const uint8_t *bytes, size_t count)
{
    struct front front = {bytes, bytes + count};
    uint32_t kind = 0, stop = frame(&front, &kind);
    if (stop == 0)
        return whole(kind, (size_t)(front.at - bytes));
    return stop == WAITING ? waiting() : bad(stop);
}

#endif
