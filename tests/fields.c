/* Calls each function of the fields' library and prints its numbers. */
#include <inttypes.h>
#include <stddef.h>
#include <stdint.h>
#include <stdio.h>
#include <string.h>

#include "vellanquor.h"

#define TEXT(s) (const uint8_t *)(s), sizeof(s) - 1

/* `empty` stands where padding was: a target's size and its other offsets are what they were. */
_Static_assert(sizeof(struct vq_target) == 8 && offsetof(struct vq_target, empty) == 1, "size of a target");
_Static_assert(offsetof(struct vq_target, distance) == 2 && offsetof(struct vq_target, magnitude) == 4 &&
                   offsetof(struct vq_target, phase) == 6 && offsetof(struct vq_target_frame, targets) == 6,
               "offsets of a target");

/* Both editions, and numbers that are none. */
static const uint32_t editions[] = {VQ_EDITION_1, VQ_EDITION_2, 0, 3, 257, UINT32_MAX};

static uint8_t output[240];

/* The writer's answer, and the output: `.` for each byte that stays 7. */
static void written(const char *what, struct vq_written w, size_t shown)
{
    printf("%s: %" PRIu32 " %" PRIu64 " |", what, w.refusal, w.size);
    for (size_t i = 0; i < shown; i++)
        putchar(output[i] == 7 ? '.' : output[i] < 32 || output[i] > 126 ? '?' : output[i]);
    putchar('\n');
    memset(output, 7, sizeof output);
}

static void data(const char *what, const uint8_t *frame, size_t count)
{
    struct vq_data_frame f = vq_read_data(frame, count);
    printf("data %s: %" PRIu32 " %" PRIu32 " %" PRIu64 " %" PRIu64 "\n", what, f.refusal, f.kind, f.start, f.size);
}

static void targets(const char *what, const uint8_t *frame, size_t count)
{
    struct vq_target_frame f = vq_read_targets(frame, count);
    int empty = 0;
    printf("targets %s: %" PRIu32 " %u %u", what, f.refusal, f.format, f.gain);
    for (int i = 0; i < 16; i++) {
        struct vq_target t = f.targets[i];
        empty += t.empty;
        if (i % 15 == 0)
            printf(" | %u %u %u %u %d", t.number, t.empty, t.distance, t.magnitude, t.phase);
    }
    printf(" | %d empty\n", empty);
}

/* Two targets, and fourteen empty blocks: of `0` and of value 0 by turns, the last of them with reserved bytes of its own. */
static void empty_blocks(void)
{
    static const char two[] = "!T5Z10200Z00640000" "20400Z80000000", last[] = "0000000000\"zZ\xFE\r\n";
    uint8_t frame[230] = {0};
    memcpy(frame, two, 32);
    memcpy(frame + 214, last, 16);
    for (int i = 3; i < 15; i += 2)
        memset(frame + 4 + 14 * i, '0', 14);

    targets("with empty blocks", frame, sizeof frame);
    struct vq_target_frame f = vq_read_targets(frame, sizeof frame);
    struct vq_written w = vq_write_targets(output, sizeof output, f);
    targets("written again", output, 230);
    written("write targets with empty blocks", w, 61);
    f.targets[2] = (struct vq_target){.number = 16, .empty = 1, .distance = 7, .magnitude = 33, .phase = -7};
    written("write targets, other fields of an empty block", vq_write_targets(output, sizeof output, f), 61);
    f.targets[2] = (struct vq_target){.magnitude = '0'};
    written("write targets, one all 0", vq_write_targets(output, sizeof output, f), 20);
    written("write targets, one all 0, room for 229", vq_write_targets(output, 229, f), 20);
    f.targets[15].empty = 2;
    written("write targets, one all 0, empty 2", vq_write_targets(output, sizeof output, f), 20);
    f.targets[2] = (struct vq_target){.magnitude = '1'};
    f.targets[15].empty = 255;
    written("write targets, empty 255, room for 229", vq_write_targets(output, 229, f), 20);
    f.targets[15].empty = 1;
    written("write targets, one not quite all 0", vq_write_targets(output, sizeof output, f), 61);
    frame[45] = '0';
    targets("with a broken block", frame, sizeof frame);
}

static void status(const char *what, uint32_t edition, const uint8_t *frame, size_t count)
{
    struct vq_status_frame f = vq_read_status(edition, frame, count);
    printf("status %s, edition %" PRIu32 ": %" PRIu32 " %u %u", what, edition, f.refusal, f.format, f.gain);
    printf(" %u %u %u %u %u %u\n", f.accuracy, f.accuracy_mm, f.max_range, f.ramp_time, f.bandwidth, f.time_difference);
}

static void error(const char *what, const uint8_t *frame, size_t count)
{
    struct vq_error_frame f = vq_read_error(frame, count);
    printf("error %s: %" PRIu32 " %u\n", what, f.refusal, f.flags);
}

static void sirad(void)
{
    uint8_t frame[230];
    struct vq_target_frame f = {.refusal = 9, .format = 15, .gain = 254};

    data("of kind 1", TEXT("!R000100000000Z\r\n"));
    data("of kind 6", TEXT("!E0000\r\n"));
    written("write data", vq_write_data(output, 20, 2, TEXT("Z\"")), 20);
    written("write data, room for 17", vq_write_data(output, 17, 2, TEXT("Z\"")), 20);
    written("write data with a space", vq_write_data(output, 20, 2, TEXT("Z ")), 20);
    written("write data of kind 4", vq_write_data(output, 20, 4, TEXT("Z ")), 20);

    for (int i = 0; i < 16; i++)
        f.targets[i] = (struct vq_target){(uint8_t)(15 - i), 0, (uint16_t)(4369 * i), (uint8_t)(34 + 14 * i), (int16_t)(4369 * i - 32768)};
    struct vq_written w = vq_write_targets(output, sizeof output, f);
    memcpy(frame, output, sizeof frame);
    written("write targets", w, 20);
    targets("written", frame, sizeof frame);
    targets("cut", frame, sizeof frame - 1);
    written("write targets, room for 229", vq_write_targets(output, 229, f), 20);
    f.targets[15].number = 16;
    written("write targets, number 16", vq_write_targets(output, 229, f), 20);
    empty_blocks();

    for (size_t i = 0; i < sizeof editions / sizeof editions[0]; i++) {
        status("of 5 tenths", editions[i], TEXT("!U5Z0005FFFF00000A0B0001\r\n"));
        status("of 15 tenths", editions[i], TEXT("!U5Z000FFFFF00000A0B0001\r\n"));
        status("of 25 tenths", editions[i], TEXT("!U5Z0019FFFF00000A0B0001\r\n"));
        status("of 35 tenths", editions[i], TEXT("!U5Z0023FFFF00000A0B0001\r\n"));
        status("of 517 tenths", editions[i], TEXT("!U5Z0205FFFF00000A0B0001\r\n"));
        status("cut", editions[i], TEXT("!U5Z0205FFFF00000A0B0001\r"));
        status("of kind 6", editions[i], TEXT("!E0000\r\n"));
    }
    written("write status", vq_write_status(output, sizeof output, 5, 'Z', 0x205, 0xFFFF, 0, 0xA0B, 1), 30);
    written("write status, gain 255", vq_write_status(output, sizeof output, 5, 255, 0x205, 0xFFFF, 0, 0xA0B, 1), 30);

    error("of kind 6", TEXT("!EFE01\r\n"));
    error("cut", TEXT("!EFE01\r"));
    written("write error", vq_write_error(output, 8, 0xFE01), 10);
    written("write error, room for 7", vq_write_error(output, 7, 0xFE01), 10);
}

static void put(uint8_t *at, uint32_t word)
{
    for (int i = 0; i < 4; i++)
        at[i] = (uint8_t)(word >> 8 * i);
}

static void record(const char *what, struct vq_record r)
{
    printf("record %s: %" PRIu32 " %" PRIu32 " %" PRIu64 " %" PRIu64 "\n", what, r.refusal, r.tag, r.start, r.length);
}

static void step(const char *what, struct vq_step s)
{
    printf("step %s: %" PRIu32 " %" PRIu32 " %" PRIu64 " %" PRIu64 " %" PRIu64 "\n", what, s.refusal, s.tag, s.start, s.length, s.next);
}

static void point(const char *what, const uint8_t *packet, size_t count, size_t index)
{
    for (size_t i = 0; i < sizeof editions / sizeof editions[0]; i++) {
        struct vq_point p = vq_point(editions[i], packet, count, index);
        printf("point %s, edition %" PRIu32 ": %" PRIu32, what, editions[i], p.refusal);
        printf(" %" PRId32 " %" PRId32 " %" PRId32 " %08" PRIX32 "\n", p.x, p.y, p.z, p.doppler);
    }
}

static void header(const char *what, struct vq_header h)
{
    printf("header %s: %" PRIu32 " %08" PRIX32 " %" PRIu32 " %" PRIX32 " %" PRIu32 " %" PRIu32 " %" PRIu32 " %" PRIu32 " %" PRIu32 "\n", what, h.refusal, h.version, h.total, h.platform, h.frame, h.time, h.objects, h.records, h.subframe);
}

/* 160 bytes: a record of type 77 with three bytes, and five points behind it: halves, too far, good, infinite and too far. */
static void mmwave(void)
{
    static const uint32_t numbers[8] = {0x03060001, 160, 0xA6843, 7, 99, 5, 2, 3};
    static const uint32_t first[2] = {77, 3};
    static const uint32_t points[22] = {1,          80,         0x3D800000, 0xBD800000, 0x447A0000, 0xFFFFFFFF, 0x3F800000, 0x447A0001,
                                        0,          0,          0x3E400000, 0xBE400000, 0xBEA00000, 0x12345678, 0x3D800000, 0x3D800000,
                                        0xFF800000, 0x447A0001, 0xC47A0001, 0x7F800000, 0,          0};
    uint8_t packet[160] = {2, 1, 4, 3, 6, 5, 8, 7};
    for (int i = 0; i < 8; i++)
        put(packet + 8 + 4 * i, numbers[i]);
    for (int i = 0; i < 2; i++)
        put(packet + 40 + 4 * i, first[i]);
    for (int i = 0; i < 22; i++)
        put(packet + 51 + 4 * i, points[i]);

    header("of 160 bytes", vq_header(16, packet, 160));
    header("of 159 bytes", vq_header(16, packet, 159));
    header("of kind 17", vq_header(17, packet, 160));
    record("0", vq_record(16, packet, 160, 0));
    record("1", vq_record(16, packet, 160, 1));
    record("2", vq_record(16, packet, 160, 2));
    record("0 of a cut packet", vq_record(16, packet, 159, 0));
    step("at 40", vq_step(16, packet, 160, 40));
    step("at 51", vq_step(16, packet, 160, 51));
    step("at 139", vq_step(16, packet, 160, 139));
    step("at 40 of a cut packet", vq_step(16, packet, 159, 40));
    point("0", packet, 160, 0);
    point("1", packet, 160, 1);
    point("2", packet, 160, 2);
    point("3", packet, 160, 3);
    point("4", packet, 160, 4);
    point("5", packet, 160, 5);
    packet[51] = 10;
    point("0 of a packet without points", packet, 160, 0);
    point("5 of a packet without points", packet, 160, 5);
    point("0 of a cut packet", packet, 159, 0);
}

/* 140 bytes: records of types 1, 2, 3 and 4 with 24, 8, 16 and 20 bytes; then 64 bytes that are a packet of both dialects. */
static void vital_signs(void)
{
    static const uint32_t numbers[8] = {0x03050004, 140, 0xA1642, 7, 1234, 99, 4, 0};
    static const uint32_t records[4][3] = {{40, 1, 24}, {72, 2, 8}, {88, 3, 16}, {112, 4, 20}};
    static const uint32_t others[] = {0, 2, 15, 16, 18, 273, UINT32_MAX};
    uint8_t packet[140] = {2, 1, 4, 3, 6, 5, 8, 7};
    for (int i = 0; i < 8; i++)
        put(packet + 8 + 4 * i, numbers[i]);
    for (int i = 0; i < 4; i++)
        put(packet + records[i][0], records[i][1]), put(packet + records[i][0] + 4, records[i][2]);

    header("of vital signs", vq_header(17, packet, 140));
    header("of 139 bytes of vital signs", vq_header(17, packet, 139));
    for (size_t i = 0; i < 5; i++) {
        char what[40];
        snprintf(what, sizeof what, "%zu of vital signs", i);
        record(what, vq_record(17, packet, 140, i));
    }
    step("at 40 of vital signs", vq_step(17, packet, 140, 40));
    step("at 72 of vital signs", vq_step(17, packet, 140, 72));
    step("at 112 of vital signs", vq_step(17, packet, 140, 112));
    step("at 140 of vital signs", vq_step(17, packet, 140, 140));
    step("at 48 of vital signs", vq_step(17, packet, 140, 48));
    step("at 40 of cut vital signs", vq_step(17, packet, 139, 40));
    point("0 of vital signs", packet, 140, 0);
    for (size_t i = 0; i < sizeof others / sizeof others[0]; i++) {
        char what[40];
        snprintf(what, sizeof what, "of kind %" PRIu32, others[i]);
        header(what, vq_header(others[i], packet, 140));
        record(what, vq_record(others[i], packet, 140, 4));
        step(what, vq_step(others[i], packet, 140, 72));
    }

    put(packet + 12, 64), put(packet + 32, 1), put(packet + 40, 2), put(packet + 44, 16);
    for (uint32_t kind = 16; kind < 18; kind++) {
        header("of both kinds", vq_header(kind, packet, 64));
        record("of both kinds", vq_record(kind, packet, 64, 0));
        step("of both kinds", vq_step(kind, packet, 64, 40));
    }
    point("of both kinds", packet, 64, 0);
}

static void command(const char *what, const uint8_t *bytes, size_t count)
{
    struct vq_command c = vq_read_command(bytes, count);
    printf("command %s: %" PRIu32 " %" PRIu32 " %04" PRIX32 " %" PRIu32 " %" PRIu32 " %" PRIu32 "\n", what, c.refusal, c.rd, c.code, c.count, c.words[0], c.words[29]);
}

static void demorad(void)
{
    struct vq_command c = {9, 1, 0x9017, 30, {'A', 3}};
    static const uint32_t flags[] = {0, 2, 256, 0x80000000, 0x80000001, UINT32_MAX};
    uint8_t bytes[124];
    c.words[29] = 0x44434241;

    command("6006", TEXT("\x06\x60\x02\x80\x04\0\0\0"));
    command("6006, selection 5", TEXT("\x06\x60\x02\x80\x05\0\0\0"));
    command("of three bytes", TEXT("\x06\x60\x02"));
    struct vq_written w = vq_write_command(output, sizeof output, c);
    memcpy(bytes, output, sizeof bytes);
    written("write command", w, 130);
    command("written", bytes, sizeof bytes);
    written("write command, room for 123", vq_write_command(output, 123, c), 10);
    for (size_t i = 0; i < sizeof flags / sizeof flags[0]; i++) {
        char what[40];
        c.rd = flags[i];
        snprintf(what, sizeof what, "write command, RD %" PRIu32, c.rd);
        w = vq_write_command(output, sizeof output, c);
        if (w.refusal == 0)
            command("written with RD 0", output, (size_t)w.size);
        written(what, w, 10);
    }
    written("write command, RD 4294967295, room for 123", vq_write_command(output, 123, c), 10);
    c.words[1] = 4;
    written("write command, selection 4", vq_write_command(output, 123, c), 10);
    c.count = 31;
    written("write command, 31 words", vq_write_command(output, 123, c), 10);
    c.code = 0x19017;
    written("write command, code 19017", vq_write_command(output, 123, c), 10);
}

int main(void)
{
    memset(output, 7, sizeof output);
    sirad();
    mmwave();
    vital_signs();
    demorad();
    return 0;
}
