/* Readers of the three dialects in plain C, for the speed tables. */
#ifndef READER_H
#define READER_H

#include <stddef.h>
#include <stdint.h>

struct c_judgement {
    uint32_t state, kind, reason;
    size_t length;
};

struct c_reading {
    uint32_t state;
    size_t rows, skipped, next;
};

/* The bytes that wait, and the place of the first of them. */
struct c_line {
    size_t place, count;
    uint8_t buffer[1 << 17];
};

struct c_millimetres {
    uint32_t refusal;
    int32_t value;
};

struct c_centidegrees {
    uint32_t refusal;
    int32_t value;
};

/* Whether a point is close, then its packet's place and its index there; zeros with a no. */
struct c_closeness {
    uint32_t refusal, close;
    uint64_t place, index;
};

struct c_reading c_closed_reading(uint32_t dialect, const uint8_t *bytes, size_t count, uint32_t *table,
                                  size_t numbers);
/* The number of rows that the new bytes bring, or SIZE_MAX if the buffer or the table is too small. */
size_t c_read_line(struct c_line *line, uint32_t dialect, const uint8_t *bytes, size_t count, uint32_t *table,
                   size_t numbers);
struct c_centidegrees c_centidegrees(uint8_t character);
struct c_closeness c_anyone_close(uint32_t dialect, uint32_t edition, uint32_t distance, const uint8_t *bytes,
                                  size_t count);

#endif
