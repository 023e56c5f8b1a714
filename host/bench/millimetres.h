/*
 * The millimetre rule as one writes it in C from papers 01 and 02 (iv). A float times 1000 is exact in a double, and so is that
 * plus a half wherever it matters. lrint takes halves to the even neighbour in the rounding mode that a program starts with.
 * Readers have it inline; reader.c has the function that others call.
 */
#ifndef MILLIMETRES_H
#define MILLIMETRES_H

#include "reader.h"

#include <math.h>
#include <string.h>

inline struct c_millimetres c_millimetres(uint32_t edition, uint32_t bits)
{
    float metres;
    memcpy(&metres, &bits, sizeof metres);
    if (edition != 1 && edition != 2)
        return (struct c_millimetres){.refusal = 32};
    if ((bits & 0x7F800000u) == 0x7F800000u)
        return (struct c_millimetres){.refusal = 30};
    if (metres > 1000.0f || metres < -1000.0f)
        return (struct c_millimetres){.refusal = 31};
    double exact = (double)metres * 1000.0;
    if (edition == 2)
        return (struct c_millimetres){.value = (int32_t)lrint(exact)};
    return (struct c_millimetres){.value = (int32_t)(exact + copysign(0.5, exact))};
}

#endif
