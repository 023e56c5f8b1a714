/* Calls the feeder at every refusal and prints its numbers, all of the carry and all of the table. */
#include <inttypes.h>
#include <stddef.h>
#include <stdint.h>
#include <stdio.h>
#include <string.h>

#include "vellanquor.h"

#define MOST 12

/* A carry holds what waits and `#` behind it, a table 7. */
static struct vq_fed feed(const char *what, uint32_t dialect, struct vq_stream stream, const char *waits, size_t room, const char *bytes, size_t numbers)
{
    uint8_t carry[MOST];
    uint32_t table[MOST];
    memset(carry, '#', sizeof carry);
    memcpy(carry, waits, strlen(waits));
    for (size_t i = 0; i < MOST; i++)
        table[i] = 7;
    struct vq_fed f = vq_feed(dialect, stream, carry, room, (const uint8_t *)bytes, strlen(bytes), table, numbers);
    printf("%s: %" PRIu32 " %" PRIu64 " %" PRIu64 " %" PRIu64 " |", what, f.refusal, f.rows, f.stream.place, f.stream.waiting);
    for (size_t i = 0; i < MOST; i++)
        printf(carry[i] > ' ' && carry[i] < 127 ? " %c" : " %02X", carry[i]);
    printf(" |");
    for (size_t i = 0; i < MOST; i++)
        printf(" %" PRIu32, table[i]);
    putchar('\n');
    return f;
}

static struct vq_stream stream(uint64_t place, uint64_t waiting)
{
    return (struct vq_stream){place, waiting};
}

/* A packet of vital signs in two calls, the second of its last byte alone, and a refused call between them. */
static void packet(void)
{
    uint8_t carry[40], bytes[40] = {2, 1, 4, 3, 6, 5, 8, 7, [12] = 40, [28] = 99};
    uint32_t table[3] = {7, 7, 7};
    struct vq_fed f = vq_feed(VQ_VITAL_SIGNS, stream(5, 0), carry, 40, bytes, 39, table, 3);
    printf("39 bytes of a packet: %" PRIu32 " %" PRIu64 " %" PRIu64 " %" PRIu64 "\n", f.refusal, f.rows, f.stream.place, f.stream.waiting);
    f = vq_feed(3, f.stream, carry, 40, bytes + 39, 1, table, 3);
    printf("dialect 3 in between: %" PRIu32 " %" PRIu64 " %" PRIu64 " %" PRIu64 "\n", f.refusal, f.rows, f.stream.place, f.stream.waiting);
    f = vq_feed(VQ_VITAL_SIGNS, f.stream, carry, 40, bytes + 39, 1, table, 3);
    printf("its last byte: %" PRIu32 " %" PRIu64 " %" PRIu64 " %" PRIu64 " | %" PRIu32 " %" PRIu32 " %" PRIu32 "\n", f.refusal, f.rows, f.stream.place, f.stream.waiting, table[0], table[1], table[2]);
}

int main(void)
{
    const uint64_t most = VQ_MAX_BYTES;
    struct vq_fed f = feed("first call", 0, stream(0, 0), "", 8, " !E00", 12);
    f = feed("second call", 0, f.stream, "!E00", 8, "00\r\n !E0001\r\n!R", 12);
    f = feed("no bytes", 0, f.stream, "!R", 8, "", 12);
    f = feed("given up", 0, f.stream, "!R", 8, "!", 12);
    feed("dialect 3", 3, stream(most + 1, 9), "!E", 8, "00", 0);
    feed("too many waiting", 0, stream(most + 1, 9), "!E", 8, "00", 0);
    feed("too long a stream", 0, stream(most - 7, 2), "!E", 8, "0000\r\n", 0);
    feed("no row", 0, stream(most - 9, 1), "!", 1, "!E0000\r\n", 2);
    feed("one row", 0, stream(most - 9, 1), "!", 1, "!E0000\r\n", 3);
    feed("no room", 0, stream(0, 1), "!", 1, "!E0000\r\n!E", 3);
    feed("room", 0, stream(0, 1), "!", 2, "!E0000\r\n!E", 3);
    feed("no carry", 0, stream(0, 0), "", 0, "?", 0);
    feed("no carry, a byte waits", 0, stream(0, 0), "", 0, "!", 0);
    feed("as many waiting as the carry has", 0, stream(0, 8), "!E0000\r\n", 8, "", 3);
    feed("a sum over 64 bits", 0, stream(UINT64_MAX, 1), "!", 8, "!", 12);
    feed("all bits", 0, stream(UINT64_MAX, UINT64_MAX), "!", 8, "!", 12);
    feed("place 2 to the 32nd", 0, stream((uint64_t)1 << 32, 0), "", 8, "!", 12);
    feed("waiting 2 to the 32nd", 0, stream(0, (uint64_t)1 << 32), "", 8, "!", 12);
    packet();
    return 0;
}
