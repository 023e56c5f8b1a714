/*
 * What the fare gateway's host does with a line that goes on: reads its bytes as they come, feeds them to the library, and
 * prints a row for each frame as soon as it is whole.
 *
 *   live_demo sirad|mmwave|vital-signs [FILE]
 *
 * FILE is a port, a pipe or a capture; without it standard input is read. A port's speed is set before (stty). At the end
 * of the line the last row tells the place that waits and how many bytes do.
 *
 * The buffers begin small and grow where the line asks for it, to show what a host does after each refusal. With a carry of
 * 65,551 bytes and a row for each eight bytes from the start, 3 alone is left.
 *
 * Exit status 0 if the line came to its end, 1 if it broke off, 2 if there was nothing to read.
 */
#define _POSIX_C_SOURCE 200809L

#include <errno.h>
#include <fcntl.h>
#include <inttypes.h>
#include <stdint.h>
#include <stdio.h>
#include <stdlib.h>
#include <unistd.h>

#include "../include/vellanquor.h"
#include "names.h"

/* The most bytes that are read at once. */
#define AT_ONCE 512

/* The first sizes of both buffers. */
#define FIRST_CARRY 64
#define FIRST_ROWS 4

/* What the host keeps between two calls. A line may be longer than a stream: `start` is the place where the stream began. */
struct line {
    uint32_t dialect;
    struct vq_stream stream;
    uint64_t start;
    uint8_t *carry;
    size_t room;
    uint32_t *table;
    size_t numbers;
};

/* A carry twice as large, the waiting bytes at its start. */
static int grow_carry(struct line *line)
{
    uint8_t *carry = realloc(line->carry, 2 * line->room);

    if (carry == NULL) {
        return 0;
    }
    line->carry = carry;
    line->room *= 2;
    return 1;
}

static int grow_table(struct line *line)
{
    uint32_t *table = realloc(line->table, 2 * line->numbers * sizeof *table);

    if (table == NULL) {
        return 0;
    }
    line->table = table;
    line->numbers *= 2;
    return 1;
}

/* Each row at once: whoever reads them does not wait for the next. */
static int print_rows(const struct line *line, uint64_t rows)
{
    uint64_t row;

    for (row = 0; row < rows; row++) {
        const uint32_t *numbers = line->table + row * VQ_ROW;

        printf("%c\t%" PRIu64 "\t%" PRIu32 "\n", letter_of(numbers[2]), line->start + numbers[0], numbers[1]);
    }
    return fflush(stdout) == 0;
}

/* Feeds all of the bytes, in one call where it can be. */
static int feed(struct line *line, const uint8_t *bytes, size_t count)
{
    size_t part = count;

    while (count != 0) {
        const struct vq_fed fed = vq_feed(line->dialect, line->stream, line->carry, line->room, bytes, part,
                                          line->table, line->numbers);
        int fine = 1;

        if (fed.refusal == 0) {
            line->stream = fed.stream;
            fine = print_rows(line, fed.rows);
            bytes += part;
            count -= part;
            part = count;
        } else if (fed.refusal == VQ_REFUSED_CARRY) {
            fine = grow_carry(line);
        } else if (fed.refusal == VQ_REFUSED_ROWS && part > 1) {
            part /= 2;
        } else if (fed.refusal == VQ_REFUSED_ROWS) {
            fine = grow_table(line);
        } else if (fed.refusal == VQ_REFUSED_SIZE && line->stream.place != 0) {
            line->start += line->stream.place;
            line->stream.place = 0;
        } else {
            fprintf(stderr, "live_demo: refused with %" PRIu32 "\n", fed.refusal);
            return 0;
        }
        if (!fine) {
            perror("live_demo");
            return 0;
        }
    }
    return 1;
}

/* Reads to the end of the line, as many bytes a time as are there. */
static int follow(struct line *line, int port)
{
    uint8_t bytes[AT_ONCE];

    printf("kind\tplace\tlength\n");
    fflush(stdout);
    for (;;) {
        const ssize_t count = read(port, bytes, sizeof bytes);

        if (count == 0) {
            break;
        }
        if (count < 0 && errno != EINTR) {
            perror("live_demo");
            return 1;
        }
        if (count > 0 && !feed(line, bytes, (size_t)count)) {
            return 1;
        }
    }
    printf("waits\t%" PRIu64 "\t%" PRIu64 "\n", line->start + line->stream.place, line->stream.waiting);
    return fflush(stdout) == 0 ? 0 : 1;
}

int main(int argc, char **argv)
{
    struct line line = {0, {0, 0}, 0, NULL, FIRST_CARRY, NULL, FIRST_ROWS * VQ_ROW};
    int port = STDIN_FILENO;
    int status = 2;

    if (argc < 2 || argc > 3 || dialect_of(argv[1]) > VQ_VITAL_SIGNS) {
        fprintf(stderr, "usage: live_demo sirad|mmwave|vital-signs [FILE]\n");
        return 2;
    }
    line.dialect = dialect_of(argv[1]);
    if (argc == 3) {
        port = open(argv[2], O_RDONLY | O_NOCTTY);
    }
    if (port < 0) {
        fprintf(stderr, "live_demo: can't read %s\n", argv[2]);
        return 2;
    }
    line.carry = malloc(line.room);
    line.table = malloc(line.numbers * sizeof *line.table);
    if (line.carry != NULL && line.table != NULL) {
        status = follow(&line, port);
    }
    free(line.carry);
    free(line.table);
    close(port);
    return status;
}
