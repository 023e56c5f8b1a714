/*
 * What the fare gateway's host does with a capture: reads a file, walks it with the closed reading, prints a row for each
 * frame, turns the points of mmWave packets into millimetres and the characters of P frames into phases, and names the
 * records of vital-signs packets.
 *
 *   gateway_demo sirad|mmwave|vital-signs FILE [1|2]
 *
 * The last word is the edition of the millimetre rule; without it halves go away from zero, as in edition 1.
 *
 * Exit status 0 if the file was read, 1 if it was refused, 2 if there was nothing to read.
 */
#include <stdint.h>
#include <stdio.h>
#include <stdlib.h>

#include "../include/vellanquor.h"
#include "arguments.h"
#include "names.h"

/* Rows of the table; a capture with more frames is read in several calls. */
#define ROWS 64

/* Points printed for each packet, and phases for each P frame. */
#define POINTS 4
#define PHASES 4

/* mmWave: where the header's counts stand, and the sizes (document 004; the header's fields add up to 40). */
#define OBJECT_COUNT 28
#define RECORD_COUNT 32
#define HEADER_SIZE 40
#define RECORD_HEADER 8
#define POINT_SIZE 16
#define TYPE_POINTS 1

/* A number, least significant byte first. */
static uint32_t number_at(const uint8_t *bytes, size_t place)
{
    return (uint32_t)bytes[place] | (uint32_t)bytes[place + 1] << 8 | (uint32_t)bytes[place + 2] << 16 |
           (uint32_t)bytes[place + 3] << 24;
}

static void print_coordinate(uint32_t edition, uint32_t bits)
{
    const struct vq_millimetres answer = vq_millimetres(edition, bits);

    if (answer.refusal != 0) {
        printf("\trefused %lu", (unsigned long)answer.refusal);
    } else {
        printf("\t%ld", (long)answer.value);
    }
}

/* The first points of a whole packet. The judgement has shown that its records lie within it. */
static void print_points(uint32_t edition, const uint8_t *packet, size_t length)
{
    const uint32_t objects = number_at(packet, OBJECT_COUNT);
    const uint32_t records = number_at(packet, RECORD_COUNT);
    size_t place = HEADER_SIZE;
    uint32_t record, point;

    for (record = 0; record < records && place + RECORD_HEADER <= length; record++) {
        const uint32_t type = number_at(packet, place);
        const uint32_t payload = number_at(packet, place + 4);

        place += RECORD_HEADER;
        if (type == TYPE_POINTS) {
            for (point = 0; point < objects && point < POINTS; point++) {
                const size_t start = place + (size_t)point * POINT_SIZE;

                printf("point %lu", (unsigned long)point);
                print_coordinate(edition, number_at(packet, start));
                print_coordinate(edition, number_at(packet, start + 4));
                print_coordinate(edition, number_at(packet, start + 8));
                printf("\tmm\n");
            }
            return;
        }
        place += payload;
    }
}

/* The records of a whole vital-signs packet, step by step: type and payload bytes (document 002, table 2). */
static void print_records(const uint8_t *packet, size_t length)
{
    static const char *const names[] = {"?", "vital signs", "range profile", "ADC data", "system information"};
    struct vq_step step = {0, 0, 0, 0, HEADER_SIZE};

    for (;;) {
        step = vq_step(VQ_KIND_VITAL_SIGNS, packet, length, (size_t)step.next);
        if (step.refusal != 0) {
            return;
        }
        printf("record\t%s\t%lu\n", names[step.tag < sizeof names / sizeof names[0] ? step.tag : 0],
               (unsigned long)step.length);
    }
}

/* The first phases of a whole P frame, in hundredths of a degree. All its characters have one. */
static void print_phases(const uint8_t *frame, size_t length)
{
    const struct vq_data_frame data = vq_read_data(frame, length);
    uint64_t index;

    for (index = 0; index < data.size && index < PHASES; index++) {
        printf("phase %lu\t%ld\n", (unsigned long)index, (long)vq_centidegrees(frame[data.start + index]).value);
    }
}

/* The closed reading with a table that may be too short: a full one is printed and the reading goes on behind it. */
static int walk(uint32_t dialect, uint32_t edition, const uint8_t *bytes, size_t count)
{
    uint32_t table[ROWS * VQ_ROW];
    uint64_t skipped = 0;
    size_t start = 0;

    printf("kind\tplace\tlength\n");
    for (;;) {
        const struct vq_reading reading =
            vq_closed_reading(dialect, bytes + start, count - start, table, sizeof table / sizeof table[0]);
        uint64_t row;

        if (reading.refusal != 0) {
            printf("refused\t%lu\n", (unsigned long)reading.refusal);
            return 1;
        }
        for (row = 0; row < reading.rows; row++) {
            const uint32_t *numbers = table + row * VQ_ROW;
            const size_t place = start + numbers[0];

            printf("%c\t%lu\t%lu\n", letter_of(numbers[2]), (unsigned long)place, (unsigned long)numbers[1]);
            if (numbers[2] == VQ_KIND_PACKET) {
                print_points(edition, bytes + place, numbers[1]);
            } else if (numbers[2] == VQ_KIND_PHASE) {
                print_phases(bytes + place, numbers[1]);
            } else if (numbers[2] == VQ_KIND_VITAL_SIGNS) {
                print_records(bytes + place, numbers[1]);
            }
        }
        skipped += reading.skipped;
        start += (size_t)reading.next;
        if (reading.state == VQ_AT_END) {
            break;
        }
    }
    printf("end\t%lu\t%lu\n", (unsigned long)count, (unsigned long)skipped);
    return 0;
}

/* Where a line that goes on would be read again: the open reading's next place. */
static void print_next(uint32_t dialect, const uint8_t *bytes, size_t count)
{
    uint32_t table[ROWS * VQ_ROW];
    size_t start = 0;
    struct vq_reading reading;
    struct vq_judgement judgement;

    do {
        reading = vq_open_reading(dialect, bytes + start, count - start, table, sizeof table / sizeof table[0]);
        start += (size_t)reading.next;
    } while (reading.refusal == 0 && reading.state == VQ_TABLE_FULL);
    judgement = vq_judge(dialect, bytes, count, start);
    if (reading.refusal == 0 && judgement.refusal == 0 && judgement.state == VQ_WAITING) {
        printf("a line that goes on waits at %lu\n", (unsigned long)start);
    }
}

int main(int argc, char **argv)
{
    uint32_t dialect, edition;
    uint8_t *bytes;
    size_t count = 0;
    int status;

    edition = argc == 4 ? edition_of(argv[3]) : VQ_EDITION_1;
    if (argc < 3 || argc > 4 || dialect_of(argv[1]) > VQ_VITAL_SIGNS || edition == 0) {
        fprintf(stderr, "usage: gateway_demo sirad|mmwave|vital-signs FILE [1|2]\n");
        return 2;
    }
    dialect = dialect_of(argv[1]);
    bytes = read_file(argv[2], &count);
    if (bytes == NULL) {
        fprintf(stderr, "gateway_demo: can't read %s\n", argv[2]);
        return 2;
    }
    status = walk(dialect, edition, bytes, count);
    if (status == 0) {
        print_next(dialect, bytes, count);
    }
    free(bytes);
    return status;
}
