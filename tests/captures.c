/*
 * Reads captures from standard input and prints what the gateway answers on each: the judgement at every offset, both readings
 * with tables of several sizes, and for each split the open readings of the first part and of all. A capture is its dialect, its
 * length (two bytes, least significant first) and its bytes.
 */
#include <inttypes.h>
#include <stddef.h>
#include <stdint.h>
#include <stdio.h>

#include "vellanquor.h"

#define MOST 30
#define TWO_ROWS 6

/* Beyond the length of every capture. */
#define BEYOND 65536

/* A table holds 7 before a reading. */
static void fill(uint32_t *table, size_t numbers)
{
    for (size_t i = 0; i < numbers; i++)
        table[i] = 7;
}

static void judge(uint32_t dialect, const uint8_t *bytes, size_t count, size_t offset)
{
    struct vq_judgement j = vq_judge(dialect, bytes, count, offset);
    if (j.refusal != 0)
        printf(" r%" PRIu32, j.refusal);
    else if (j.state == VQ_WHOLE)
        printf(" w%" PRIu32 ":%" PRIu64, j.kind, j.length);
    else if (j.state == VQ_BAD)
        printf(" b%" PRIu32, j.reason);
    else if (j.state == VQ_WAITING)
        printf(" .");
    else
        printf(" state %" PRIu32, j.state);
}

static void judgements(uint32_t dialect, const uint8_t *bytes, size_t count)
{
    printf("judged");
    for (size_t offset = 0; offset <= count; offset++)
        judge(dialect, bytes, count, offset);
    judge(dialect, bytes, count, BEYOND);
    putchar('\n');
}

static void answer(struct vq_reading r)
{
    printf(" %" PRIu32 " %" PRIu64 " %" PRIu64 " %" PRIu64 " %" PRIu32, r.refusal, r.rows, r.skipped, r.next, r.state);
}

/* Tables with no row, one row and two rows, with numbers left over, and with many rows. */
static void readings(uint32_t dialect, const uint8_t *bytes, size_t count)
{
    static const size_t sizes[] = {0, 1, 2, 3, 5, 6, MOST};
    for (size_t i = 0; i < sizeof sizes / sizeof sizes[0]; i++)
        for (int closed = 0; closed < 2; closed++) {
            const size_t numbers = sizes[i];
            uint32_t table[MOST];
            fill(table, MOST);
            printf("%s %zu:", closed ? "closed" : "open", numbers);
            answer(closed ? vq_closed_reading(dialect, bytes, count, table, numbers)
                          : vq_open_reading(dialect, bytes, count, table, numbers));
            printf(" |");
            for (size_t n = 0; n < numbers; n++)
                printf(" %" PRIu32, table[n]);
            putchar('\n');
        }
}

/* The checksum of the first rows of a table of two. */
static uint64_t row_sum(const uint32_t *table, uint64_t rows)
{
    uint64_t sum = 0;
    for (size_t i = 0; i < TWO_ROWS && i / VQ_ROW < rows; i++)
        sum = (sum * 241 + table[i] % 65536) % 16777213;
    return sum;
}

/* The open reading of the first k bytes beside that of all, with the checksums of as many rows as the first has. */
static void split(uint32_t dialect, const uint8_t *bytes, size_t count, size_t k)
{
    uint32_t first[TWO_ROWS], both[TWO_ROWS];
    fill(first, TWO_ROWS);
    fill(both, TWO_ROWS);
    struct vq_reading a = vq_open_reading(dialect, bytes, k, first, TWO_ROWS);
    struct vq_reading b = vq_open_reading(dialect, bytes, count, both, TWO_ROWS);
    printf("split %zu |", k);
    answer(a);
    printf(" %" PRIu64 " |", row_sum(first, a.rows));
    answer(b);
    printf(" %" PRIu64 "\n", row_sum(both, a.rows));
}

int main(void)
{
    static uint8_t bytes[65535];
    uint8_t head[3];
    while (fread(head, 1, 3, stdin) == 3) {
        const uint32_t dialect = head[0];
        const size_t count = head[1] + 256u * head[2];
        if (fread(bytes, 1, count, stdin) != count)
            return 1;
        printf("capture %" PRIu32 " %zu\n", dialect, count);
        judgements(dialect, bytes, count);
        readings(dialect, bytes, count);
        for (size_t k = 0; k <= count; k++)
            split(dialect, bytes, count, k);
    }
    return 0;
}
