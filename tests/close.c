/* Asks whether anyone is close and prints the numbers: refusal, close, place, index. */
#include <inttypes.h>
#include <stddef.h>
#include <stdint.h>
#include <stdio.h>
#include <string.h>

#include "vellanquor.h"

_Static_assert(sizeof(struct vq_closeness) == 24 && offsetof(struct vq_closeness, close) == 4 &&
                   offsetof(struct vq_closeness, place) == 8 && offsetof(struct vq_closeness, index) == 16,
               "layout of the answer");

/* X, Y and Z as the bits of floats: 0.1, -0.2, 0.3 m; 5, -6, 7 m. */
typedef uint32_t point[3];
static const point near_by = {0x3DCCCCCD, 0xBE4CCCCD, 0x3E99999A}, far_off = {0x40A00000, 0xC0C00000, 0x40E00000};

/* The capture so far, and where its last packet starts. */
static uint8_t capture[VQ_MAX_BYTES + 1];
static size_t size, start;

static void put(size_t place, uint32_t word)
{
    for (int i = 0; i < 4; i++)
        capture[place + i] = (uint8_t)(word >> 8 * i);
}

static void word(uint32_t word)
{
    put(size, word);
    size += 4;
}

/* A packet begins with its header, L and K 0 for now. */
static void begin(uint32_t objects)
{
    static const uint32_t header[6] = {0x03040102, 0x07080506, 1, 0, 0xA6843, 7};
    start = size;
    for (int i = 0; i < 6; i++)
        word(header[i]);
    word(1234), word(objects), word(0), word(3);
}

/* A record of points; their Doppler velocities are no numbers. */
static void record(uint32_t type, uint32_t count, const point points[])
{
    capture[start + 32]++;
    word(type), word(16 * count);
    for (uint32_t i = 0; i < count; i++)
        word(points[i][0]), word(points[i][1]), word(points[i][2]), word(0x7FC00000);
}

static void end(void)
{
    while ((size - start) % 32 != 0)
        capture[size++] = 0x55;
    put(start + 12, (uint32_t)(size - start));
}

/* A packet of one record of points: one takes 64 bytes, two or three 96. */
static void packet(uint32_t count, const point points[])
{
    begin(count);
    record(1, count, points);
    end();
}

static void print(uint32_t dialect, uint32_t edition, uint32_t distance, size_t count)
{
    struct vq_closeness c = vq_anyone_close(dialect, edition, distance, capture, count);
    printf(" | %" PRIu32 " %" PRIu32 " %" PRIu64 " %" PRIu64, c.refusal, c.close, c.place, c.index);
}

/* The capture by both editions. */
static void ask(const char *what, uint32_t distance)
{
    printf("%s, %" PRIu32 " mm", what, distance);
    print(VQ_MMWAVE, VQ_EDITION_1, distance, size);
    print(VQ_MMWAVE, VQ_EDITION_2, distance, size);
    putchar('\n');
}

/* The same of a capture of one point. */
static void ask_point(const char *what, const point only, uint32_t distance)
{
    size = 0;
    packet(1, (const point[]){{only[0], only[1], only[2]}});
    ask(what, distance);
}

/* A point's value in each coordinate alone, at two distances. */
static void each_coordinate(const char *what, uint32_t bits, uint32_t first, uint32_t second)
{
    for (int axis = 0; axis < 3; axis++) {
        char name[40];
        point only = {0, 0, 0};
        only[axis] = bits;
        snprintf(name, sizeof name, "%c %s", "XYZ"[axis], what);
        ask_point(name, only, first);
        ask_point(name, only, second);
    }
}

static void coordinates(void)
{
    ask_point("a point", near_by, 300);
    ask_point("a point", near_by, 299);
    each_coordinate("0.5 m", 0x3F000000, 499, 500);
    each_coordinate("-0.5 m", 0xBF000000, 499, 500);
    each_coordinate("0.0625 m", 0x3D800000, 62, 63);
    each_coordinate("-0.0625 m", 0xBD800000, 62, 63);
    each_coordinate("0.1875 m", 0x3E400000, 187, 188);
    ask_point("zeros", (point){0, 0x80000000, 0}, 0);
    ask_point("0.6 mm", (point){0x3A1D4952, 0, 0}, 0);
    ask_point("0.6 mm", (point){0x3A1D4952, 0, 0}, 1);
    ask_point("1000 m", (point){0x447A0000, 0xC47A0000, 0x447A0000}, VQ_MAX_DISTANCE);
    ask_point("1000 m", (point){0x447A0000, 0xC47A0000, 0x447A0000}, VQ_MAX_DISTANCE - 1);
}

/* Coordinates that are refused, alone and in front of a point that is close. */
static void refused_coordinates(void)
{
    static const struct {
        const char *what;
        uint32_t bits;
    } cases[] = {{"infinite", 0x7F800000}, {"no number", 0xFFC00000}, {"over 1000 m", 0x447A0001}, {"below -1000 m", 0xC47A0001}};
    for (size_t i = 0; i < sizeof cases / sizeof cases[0]; i++) {
        each_coordinate(cases[i].what, cases[i].bits, 0, VQ_MAX_DISTANCE);
        for (int axis = 0; axis < 3; axis++) {
            point points[2] = {{0, 0, 0}, {near_by[0], near_by[1], near_by[2]}};
            points[0][axis] = cases[i].bits;
            size = 0;
            packet(2, points);
            ask("behind it a close point", 300);
        }
    }
}

/* The first of several packets and the first of its points; a place over 16 bits, and an index over 8. */
static void places(void)
{
    point points[300];
    for (int i = 0; i < 300; i++)
        memcpy(points[i], i < 298 ? far_off : near_by, sizeof points[i]);
    size = 0;
    packet(2, points), packet(3, points + 297), packet(2, points + 298);
    ask("the second of three packets", 300);
    ask("none of three packets", 299);
    packet(1, (const point[]){{0, 0, 0}});
    ask("the fourth of four packets", 299);
    size = 0;
    packet(300, points);
    ask("the point behind 298", 300);
    memset(capture, ' ', sizeof capture);
    size = 70000;
    packet(1, points + 299);
    ask("behind 70,000 bytes", 300);
}

/* The record of type 1 alone counts, wherever it stands; a packet with two of them is none. */
static void records(void)
{
    static const uint32_t types[][2] = {{1, 1}, {10, 1}, {257, 10}, {1, 77}};
    for (size_t i = 0; i < sizeof types / sizeof types[0]; i++)
        for (int first = 0; first < 2; first++) {
            char what[60];
            size = 0;
            begin(1);
            record(types[i][0], 1, first ? &near_by : &far_off);
            record(types[i][1], 1, first ? &far_off : &near_by);
            end();
            snprintf(what, sizeof what, "types %" PRIu32 " and %" PRIu32 ", near in the %s", types[i][0], types[i][1],
                     first ? "first" : "second");
            ask(what, 300);
        }
}

/* A known type again, or 4 beside 8: such a packet is none, and what stands behind it is read. Other types may repeat. */
static void repeated_types(void)
{
    static const uint32_t types[][3] = {{1, 10, 1}, {4, 1, 8}, {8, 1, 4}, {1, 5, 5}, {10, 1, 10}, {0, 0, 1}, {257, 1, 257}};
    for (size_t i = 0; i < sizeof types / sizeof types[0]; i++) {
        char what[60];
        size = 0;
        begin(1);
        for (int j = 0; j < 3; j++)
            record(types[i][j], 1, &near_by);
        end();
        snprintf(what, sizeof what, "types %" PRIu32 ", %" PRIu32 " and %" PRIu32, types[i][0], types[i][1], types[i][2]);
        ask(what, 300);
        packet(1, (const point[]){{0, 0, 0}});
        ask("and zeros in a packet behind it", 299);
    }
}

/* A packet as the payload of one; the outer one whole, cut behind the inner one, and broken: L is 32 more than it fills. */
static void packets(void)
{
    size = 0;
    ask("no bytes", VQ_MAX_DISTANCE);
    begin(0), end();
    ask("no points", VQ_MAX_DISTANCE);
    packet(1, &near_by);
    ask("behind a packet without points", 300);
    size--;
    ask("a packet that breaks off", 300);

    size = 48;
    packet(1, &near_by);
    const size_t inside = size;
    size = 0;
    begin(0);
    word(10), word(64);
    size = inside;
    capture[32] = 1;
    end();
    ask("inside a whole packet", 300);
    size = inside;
    ask("inside a packet that breaks off", 300);
    size = 128;
    put(12, 160);
    ask("inside a broken packet", 300);
}

/* Vital signs: a record of type 1, 24 zeros; 72 bytes. */
static void vital_signs(void)
{
    size = 0;
    begin(99);
    memset(capture + size, 0, 32);
    put(12, 72), put(32, 1), put(36, 0), put(40, 1), put(44, 24);
    size = 72;
    ask("vital signs", VQ_MAX_DISTANCE);
    packet(1, &near_by);
    ask("behind vital signs", 300);
}

/* Each size and dialect by each edition, at a distance that is fine and one that is not: 1, then 3, then 32, then 33. */
static void refusals(void)
{
    static const uint32_t dialects[] = {0, 1, 2, 3, 257, UINT32_MAX}, editions[] = {1, 2, 0, 3, 257, UINT32_MAX};
    static const size_t sizes[] = {0, 64, VQ_MAX_BYTES, VQ_MAX_BYTES + 1};
    memset(capture, ' ', sizeof capture);
    size = 0;
    packet(1, &near_by);
    ask("the greatest distance", VQ_MAX_DISTANCE);
    ask("one more", VQ_MAX_DISTANCE + 1);
    ask("all bits", UINT32_MAX);
    for (size_t s = 0; s < sizeof sizes / sizeof sizes[0]; s++)
        for (size_t d = 0; d < sizeof dialects / sizeof dialects[0]; d++) {
            printf("%zu bytes, dialect %" PRIu32, sizes[s], dialects[d]);
            for (size_t e = 0; e < sizeof editions / sizeof editions[0]; e++) {
                print(dialects[d], editions[e], 300, sizes[s]);
                print(dialects[d], editions[e], VQ_MAX_DISTANCE + 1, sizes[s]);
            }
            putchar('\n');
        }
}

int main(void)
{
    coordinates();
    refused_coordinates();
    places();
    records();
    repeated_types();
    packets();
    vital_signs();
    refusals();
    return 0;
}
