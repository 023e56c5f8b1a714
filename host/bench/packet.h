/* The judgement on packets, for judge.h and for readers of packets alone. */
#ifndef PACKET_H
#define PACKET_H

#include "reader.h"

#include <stdbool.h>

enum { WHOLE = 1, BAD, WAITING };
enum { SIRAD, MMWAVE, VITAL_SIGNS };

static struct c_judgement whole(uint32_t kind, size_t length)
{
    return (struct c_judgement){.state = WHOLE, .kind = kind, .length = length};
}

static struct c_judgement bad(uint32_t reason)
{
    return (struct c_judgement){.state = BAD, .reason = reason};
}

static struct c_judgement waiting(void)
{
    return (struct c_judgement){.state = WAITING};
}

static uint32_t number(const uint8_t *b)
{
    return (uint32_t)b[0] | (uint32_t)b[1] << 8 | (uint32_t)b[2] << 16 | (uint32_t)b[3] << 24;
}

/* The legal payload lengths of a type: multiples of `step`, or, if that is 0, `only`; none if that is over any L. */
static void lengths(uint32_t type, uint64_t objects, uint64_t *step, uint64_t *only)
{
    *step = 0;
    *only = UINT64_MAX;
    switch (type) {
    case 1:
        if (objects)
            *only = 16 * objects;
        break;
    case 7:
        if (objects)
            *only = 4 * objects;
        break;
    case 2:
    case 3:
    case 5:
        *step = 2;
        break;
    case 4:
    case 8:
        *step = 4;
        break;
    case 6:
        *only = 24;
        break;
    case 9:
        *only = 28;
        break;
    default:
        *step = 1;
    }
}

/* A type's bit among those seen in an mmWave packet: 4 and 8 share one, a type outside 1 to 9 may repeat and has none. */
static uint32_t type_bit(uint32_t type)
{
    if (type == 8)
        return 1u << 4;
    return type >= 1 && type <= 9 ? 1u << type : 0;
}

static void vital_signs_lengths(uint32_t type, uint64_t *step, uint64_t *only)
{
    *step = 0;
    *only = UINT64_MAX;
    switch (type) {
    case 1:
        *only = 24;
        break;
    case 2:
        *step = 4;
        break;
    case 3:
        *step = 16;
        break;
    case 4:
        *only = 20;
    }
}

static bool legal_total(uint32_t dialect, uint64_t total)
{
    if (dialect == MMWAVE)
        return total % 32 == 0 && total >= 64 && total <= 32768;
    return total % 4 == 0 && total >= 40 && total != 44 && total <= 32768;
}

static bool can_end(uint32_t dialect, uint64_t end, uint64_t behind, uint64_t total)
{
    if (behind != 0)
        return end + 8 * behind <= total;
    return dialect == MMWAVE ? end <= total && total < end + 32 : end == total;
}

static struct c_judgement judge_packet(uint32_t dialect, const uint8_t *bytes, size_t count)
{
    static const uint8_t magic[8] = {2, 1, 4, 3, 6, 5, 8, 7};
    for (size_t i = 0; i < 8; i++) {
        if (i == count)
            return waiting();
        if (bytes[i] != magic[i])
            return bad(20);
    }
    if (count < 16)
        return waiting();
    uint64_t total = number(bytes + 12);
    if (!legal_total(dialect, total))
        return bad(21);
    if (count < 32)
        return waiting();
    uint64_t objects = number(bytes + 28);
    if (dialect == VITAL_SIGNS && objects != 99)
        return bad(26);
    if (count < 36)
        return waiting();
    uint64_t records = number(bytes + 32);
    if (records > 32 || 8 * records > total - 40 || (records == 0 && total != (dialect == MMWAVE ? 64 : 40)))
        return bad(22);
    if (count < 40)
        return waiting();
    if (dialect == VITAL_SIGNS && number(bytes + 36) != 0)
        return bad(26);
    uint64_t place = 40;
    uint32_t seen = 0;
    for (uint64_t behind = records; behind-- > 0;) {
        uint64_t step, only;
        if (count < place + 4)
            return waiting();
        uint32_t type = number(bytes + place);
        if (dialect == MMWAVE) {
            if (seen & type_bit(type))
                return bad(25);
            seen |= type_bit(type);
            lengths(type, objects, &step, &only);
        } else {
            vital_signs_lengths(type, &step, &only);
        }
        /* The records before this one left room for it and those behind it. */
        uint64_t room = total - place - 8 * (behind + 1);
        if (step ? !can_end(dialect, place + 8 + room / step * step, behind, total)
                 : only > room || !can_end(dialect, place + 8 + only, behind, total))
            return bad(23);
        if (count < place + 8)
            return waiting();
        uint64_t length = number(bytes + place + 4);
        if ((step ? length % step != 0 : length != only) || !can_end(dialect, place + 8 + length, behind, total))
            return bad(24);
        place += 8 + length;
    }
    return count < total ? waiting() : whole(dialect == MMWAVE ? 16 : 17, total);
}

#endif
