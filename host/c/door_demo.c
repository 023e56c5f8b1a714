/*
 * What a door controller does with a capture of mmWave packets: asks whether anyone is close.
 *
 *   door_demo DISTANCE FILE [1|2]
 *
 * DISTANCE is in millimetres. The last word is the edition of the millimetre rule; without it halves go away from zero, as in
 * edition 1. It prints one line, tabs between fields:
 *   close PLACE INDEX X Y Z   the first point that is close: its packet's place, its index there, its millimetres
 *   nobody
 *   refused NUMBER            3 for a file that is too long, 32 for another edition, 33 for a distance over 1,000,000
 *
 * Exit status 0 if someone is close, 1 if nobody is, 2 if the question was refused or there was nothing to read.
 */
#include <inttypes.h>
#include <stdint.h>
#include <stdio.h>
#include <stdlib.h>
#include <string.h>

#include "../include/vellanquor.h"
#include "arguments.h"

/* The distance of a word of digits; one that is longer than 32 bits is refused like the greatest. */
static int distance_of(const char *word, uint32_t *distance)
{
    const unsigned long long number = strtoull(word, NULL, 10);

    *distance = number > UINT32_MAX ? UINT32_MAX : (uint32_t)number;
    return word[0] != '\0' && word[strspn(word, "0123456789")] == '\0';
}

/* The answer names the packet by its place: the judgement there has its length. */
static void print_close(uint32_t edition, const uint8_t *bytes, size_t count, struct vq_closeness closeness)
{
    const size_t place = (size_t)closeness.place;
    const struct vq_judgement packet = vq_judge(VQ_MMWAVE, bytes, count, place);
    const struct vq_point point = vq_point(edition, bytes + place, (size_t)packet.length, (size_t)closeness.index);

    printf("close\t%" PRIu64 "\t%" PRIu64 "\t%" PRId32 "\t%" PRId32 "\t%" PRId32 "\n", closeness.place, closeness.index,
           point.x, point.y, point.z);
}

static int ask(uint32_t edition, uint32_t distance, const uint8_t *bytes, size_t count)
{
    const struct vq_closeness closeness = vq_anyone_close(VQ_MMWAVE, edition, distance, bytes, count);

    if (closeness.refusal != 0) {
        printf("refused\t%" PRIu32 "\n", closeness.refusal);
        return 2;
    }
    if (closeness.close == 0) {
        printf("nobody\n");
        return 1;
    }
    print_close(edition, bytes, count, closeness);
    return 0;
}

int main(int argc, char **argv)
{
    uint32_t distance;
    uint8_t *bytes;
    size_t count = 0;
    int status;

    if (argc < 3 || argc > 4 || !distance_of(argv[1], &distance)) {
        fprintf(stderr, "usage: door_demo DISTANCE FILE [1|2]\n");
        return 2;
    }
    bytes = read_file(argv[2], &count);
    if (bytes == NULL) {
        fprintf(stderr, "door_demo: can't read %s\n", argv[2]);
        return 2;
    }
    status = ask(argc == 4 ? edition_of(argv[3]) : VQ_EDITION_1, distance, bytes, count);
    free(bytes);
    return status;
}
