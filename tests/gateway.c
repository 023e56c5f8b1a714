/* Calls each function of the gateway and prints its numbers. */
#include <inttypes.h>
#include <stddef.h>
#include <stdint.h>
#include <stdio.h>
#include <string.h>

#include "vellanquor.h"

static uint8_t large[VQ_MAX_BYTES + 1];

static void judge(const char *what, uint32_t dialect, const void *bytes, size_t count, size_t offset)
{
    struct vq_judgement j = vq_judge(dialect, bytes, count, offset);
    printf("judge %s: %" PRIu32 " %" PRIu32 " %" PRIu32 " %" PRIu32 " %" PRIu64 "\n", what, j.refusal, j.state, j.kind, j.reason, j.length);
}

static void convert(uint32_t edition, uint32_t bits)
{
    struct vq_millimetres m = vq_millimetres(edition, bits);
    printf("millimetres %08" PRIX32 ", edition %" PRIu32 ": %" PRIu32 " %" PRId32 "\n", bits, edition, m.refusal, m.value);
}

/* Halves, floats beside them, a zero, the limit and what is refused, by both editions; then by numbers that are none. */
static void millimetres(void)
{
    static const uint32_t floats[] = {0x3D800000, 0xBD800000, 0x3E400000, 0xBE400000, 0x3EA00000, 0xBEA00000,
                                      0x3D7FFFFF, 0x3D800001, 0x3E3FFFFF, 0x3E400001, 0x4479F400, 0xC479F400,
                                      0x80000000, 0x447A0000, 0xC47A0000, 0x447A0001, 0x7F800000};
    static const uint32_t none[] = {0, 3, 4, 255, 257, 0x80000002, UINT32_MAX};
    for (uint32_t edition = VQ_EDITION_1; edition <= VQ_EDITION_2; edition++)
        for (size_t i = 0; i < sizeof floats / sizeof floats[0]; i++)
            convert(edition, floats[i]);
    for (size_t i = 0; i < sizeof none / sizeof none[0]; i++) {
        convert(none[i], 0x3D800000);
        convert(none[i], 0x447A0001);
        convert(none[i], 0x7F800000);
    }
}

/* Both ends, the paper's two, zero and those beside it, and bytes that are no character. */
static void centidegrees(void)
{
    static const uint8_t characters[] = {33, 34, 36, 90, 143, 144, 145, 254, 255, 0};
    for (size_t i = 0; i < sizeof characters; i++) {
        struct vq_centidegrees c = vq_centidegrees(characters[i]);
        printf("centidegrees %d: %" PRIu32 " %" PRId32 "\n", characters[i], c.refusal, c.value);
    }
}

static void read_both(const char *what, uint32_t dialect, const void *bytes, size_t count, size_t numbers)
{
    for (int closed = 0; closed < 2; closed++) {
        uint32_t table[12];
        for (size_t i = 0; i < 12; i++)
            table[i] = 7;
        struct vq_reading r = closed ? vq_closed_reading(dialect, bytes, count, table, numbers)
                                     : vq_open_reading(dialect, bytes, count, table, numbers);
        printf("%s %s: %" PRIu32 " %" PRIu32 " %" PRIu64 " %" PRIu64 " %" PRIu64 " |", closed ? "closed" : "open", what, r.refusal, r.state, r.rows, r.skipped, r.next);
        for (size_t i = 0; i < 12; i++)
            printf(" %" PRIu32, table[i]);
        putchar('\n');
    }
}

/* A vital-signs packet of 64 bytes with one record of type 2, and what becomes of it with other bytes in its fields. */
static void vital_signs(void)
{
    static const struct {
        const char *what;
        uint8_t total, fixed, records, subframe, type, length;
    } cases[] = {
        {"vital signs", 64, 99, 1, 0, 2, 16},
        {"L 40", 40, 99, 0, 0, 2, 16},
        {"L 36", 36, 99, 0, 0, 2, 16},
        {"L 44", 44, 99, 0, 0, 2, 16},
        {"L 62", 62, 99, 1, 0, 2, 16},
        {"98", 64, 98, 0, 1, 2, 16},
        {"no record", 64, 99, 0, 0, 2, 16},
        {"no record, subframe 1", 64, 99, 0, 1, 2, 16},
        {"a record in 40 bytes", 40, 99, 1, 0, 2, 16},
        {"four records", 64, 99, 4, 0, 2, 16},
        {"33 records", 64, 99, 33, 0, 2, 16},
        {"three records", 64, 99, 3, 0, 2, 16},
        {"subframe 1", 64, 99, 1, 1, 5, 16},
        {"type 0", 64, 99, 1, 0, 0, 16},
        {"type 1", 64, 99, 1, 0, 1, 16},
        {"type 3", 64, 99, 1, 0, 3, 16},
        {"type 4", 64, 99, 1, 0, 4, 16},
        {"type 5", 64, 99, 1, 0, 5, 16},
        {"length 12", 64, 99, 1, 0, 2, 12},
        {"length 20", 64, 99, 1, 0, 2, 20},
        {"two records, length 6", 64, 99, 2, 0, 2, 6},
        {"type 3, length 0", 64, 99, 1, 0, 3, 0},
    };
    uint8_t packet[64] = {2, 1, 4, 3, 6, 5, 8, 7};
    for (size_t i = 0; i < sizeof cases / sizeof cases[0]; i++) {
        packet[12] = cases[i].total;
        packet[28] = cases[i].fixed;
        packet[32] = cases[i].records;
        packet[36] = cases[i].subframe;
        packet[40] = cases[i].type;
        packet[44] = cases[i].length;
        judge(cases[i].what, VQ_VITAL_SIGNS, packet, 64, 0);
        if (i == 0) {
            judge("vital signs as mmWave", VQ_MMWAVE, packet, 64, 0);
            judge("vital signs, cut", VQ_VITAL_SIGNS, packet, 63, 0);
            judge("vital signs, dialect 3", 3, packet, 64, 0);
            read_both("vital signs", VQ_VITAL_SIGNS, packet, 64, 12);
            read_both("vital signs as mmWave", VQ_MMWAVE, packet, 64, 12);
        }
    }
}

static void put(uint8_t *at, uint32_t word)
{
    for (int i = 0; i < 4; i++)
        at[i] = (uint8_t)(word >> 8 * i);
}

/* A legal payload length of a type: in mmWave with two objects. */
static uint32_t length_of(uint32_t dialect, uint32_t type)
{
    static const uint32_t mmwave[10] = {8, 32, 8, 8, 8, 8, 24, 8, 8, 28}, vital_signs[5] = {0, 24, 8, 16, 20};
    return dialect == VQ_VITAL_SIGNS ? vital_signs[type] : mmwave[type < 10 ? type : 0];
}

/* A packet with records of these types, each of a legal length; answers its bytes. */
static size_t build(uint8_t *packet, uint32_t dialect, uint32_t count, const uint32_t *types)
{
    static const uint8_t magic[8] = {2, 1, 4, 3, 6, 5, 8, 7};
    size_t end = 40;
    memset(packet, 0, 256);
    memcpy(packet, magic, 8);
    for (uint32_t i = 0; i < count; i++) {
        put(packet + end, types[i]);
        put(packet + end + 4, length_of(dialect, types[i]));
        end += 8 + length_of(dialect, types[i]);
    }
    if (dialect == VQ_MMWAVE)
        end = (end + 31) / 32 * 32;
    put(packet + 12, (uint32_t)end);
    put(packet + 28, dialect == VQ_MMWAVE ? 2 : 99);
    put(packet + 32, count);
    return end;
}

/* State and reason of packets with two records of all types up to `most`. */
static void pairs(const char *what, uint32_t dialect, uint32_t most)
{
    for (uint32_t first = 1; first <= most; first++) {
        printf("%s, %" PRIu32 " and then 1 to %" PRIu32 ":", what, first, most);
        for (uint32_t second = 1; second <= most; second++) {
            uint8_t packet[256];
            const size_t count = build(packet, dialect, 2, (const uint32_t[]){first, second});
            struct vq_judgement j = vq_judge(dialect, packet, count, 0);
            printf(" %" PRIu32 "/%" PRIu32, j.state, j.reason);
        }
        putchar('\n');
    }
}

/* Each known type once, and not both 4 and 8; other types may repeat, and in vital signs all may. */
static void repeated_types(void)
{
    static const uint32_t types[][3] = {{4, 10, 8},    {8, 10, 4},                  {1, 10, 1},
                                        {0, 0, 0},     {10, 10, 10},                {UINT32_MAX, UINT32_MAX, UINT32_MAX},
                                        {257, 1, 257}, {0x80000004, 8, 0x80000004}, {33, 1, 17}};
    uint8_t packet[256];
    pairs("types", VQ_MMWAVE, 9);
    pairs("vital signs, types", VQ_VITAL_SIGNS, 4);
    for (size_t i = 0; i < sizeof types / sizeof types[0]; i++) {
        char what[60];
        const size_t count = build(packet, VQ_MMWAVE, 3, types[i]);
        snprintf(what, sizeof what, "types %" PRIu32 ", %" PRIu32 " and %" PRIu32, types[i][0], types[i][1], types[i][2]);
        judge(what, VQ_MMWAVE, packet, count, 0);
    }

    /* L 96: behind 32 bytes of type 6 at 40, no record of type 6 or 9 has room at 72. */
    build(packet, VQ_MMWAVE, 2, (const uint32_t[]){6, 6});
    put(packet + 12, 96);
    judge("type 6 again, cut in its type", VQ_MMWAVE, packet, 75, 0);
    judge("type 6 again, cut behind its type", VQ_MMWAVE, packet, 76, 0);
    judge("type 6 again, and no room", VQ_MMWAVE, packet, 96, 0);
    put(packet + 72, 9);
    judge("type 9, and no room", VQ_MMWAVE, packet, 76, 0);
    put(packet + 72, 2);
    judge("type 2, and room", VQ_MMWAVE, packet, 76, 0);
    put(packet + 72, 6), put(packet + 44, 23);
    judge("a wrong length before type 6 again", VQ_MMWAVE, packet, 96, 0);

    /* L 96 is the end: two records of type 4, 28 bytes each, fit in both dialects. */
    const size_t both = build(packet, VQ_VITAL_SIGNS, 2, (const uint32_t[]){4, 4});
    judge("type 4 twice", VQ_MMWAVE, packet, both, 0);
    judge("type 4 twice in vital signs", VQ_VITAL_SIGNS, packet, both, 0);
    read_both("type 4 twice", VQ_MMWAVE, packet, both, 12);
    read_both("type 4 twice in vital signs", VQ_VITAL_SIGNS, packet, both, 12);
}

/* A T frame, its blocks all of value 0 or all of `0`, with another byte at a place: judged whole and up to that byte. */
static void empty_blocks(void)
{
    static const struct {
        size_t place;
        uint8_t byte;
    } cases[] = {{4, 0},   {4, '0'}, {4, 1},  {5, 0},   {5, '0'}, {9, 0}, {14, 0}, {14, '"'}, {17, 0},
                 {17, '0'}, {18, 0},  {32, 0}, {227, 0}, {2, 0},   {3, 0}, {228, 0}, {229, 0}};
    for (int form = 0; form < 2; form++)
        for (size_t i = 0; i < sizeof cases / sizeof cases[0]; i++) {
            const size_t place = cases[i].place;
            char what[60];
            uint8_t frame[230] = "!T5Z";
            memset(frame + 4, form == 0 ? 0 : '0', 224);
            frame[228] = '\r';
            frame[229] = '\n';
            frame[place] = cases[i].byte;
            snprintf(what, sizeof what, "blocks of %s, %d at %zu", form == 0 ? "value 0" : "`0`", cases[i].byte, place);
            judge(what, VQ_SIRAD, frame, 230, 0);
            judge("up to there", VQ_SIRAD, frame, place + 1, 0);
            if (i == 0)
                read_both(what, VQ_SIRAD, frame, 230, 12);
        }
}

int main(void)
{
    static const char capture[] = "!E0000\r\n !E00G0\r\n!E0001\r\n!E00";
    uint8_t packet[64] = {2, 1, 4, 3, 6, 5, 8, 7};
    packet[12] = 64;

    judge("whole", 0, capture, 29, 0);
    judge("no start", 0, capture, 29, 8);
    judge("not a hex digit", 0, capture, 29, 9);
    judge("waiting", 0, capture, 29, 25);
    judge("at the end", 0, capture, 29, 29);
    judge("beyond the end", 0, capture, 29, 30);
    judge("packet", 1, packet, 64, 0);
    judge("no magic", 1, packet, 64, 1);
    judge("packet as vital signs", 2, packet, 64, 0);
    judge("dialect 3", 3, packet, 64, 0);
    judge("nothing", 0, capture, 0, 0);
    memset(large, '!', sizeof large);
    judge("too many bytes", 0, large, sizeof large, 0);
    judge("many bytes", 0, large, sizeof large - 1, sizeof large - 3);

    millimetres();
    centidegrees();

    read_both("capture", 0, capture, 29, 12);
    read_both("one row", 0, capture, 29, 5);
    read_both("no row", 0, capture, 29, 0);
    read_both("packet", 1, packet, 64, 12);
    read_both("packet as vital signs", 2, packet, 64, 12);
    read_both("dialect 3", 3, packet, 64, 12);
    read_both("too many bytes", 0, large, sizeof large, 12);
    read_both("too many bytes of vital signs", 2, large, sizeof large, 12);
    vital_signs();
    empty_blocks();
    repeated_types();
    return 0;
}
