/*
 * The gateway's face: what the fare gateway's host, written in C, calls.
 *
 * It reads three dialects of radar bytes:
 *   0  SiRad        frames of printable bytes, kinds 1 to 6
 *   1  mmWave       packets of little-endian numbers, kind 16
 *   2  vital signs  packets with the same header and other rules, kind 17
 * and a wire of its own, DemoRad's command words. The same bytes can be a packet of dialects 1 and 2.
 *
 * Each function tests what it is handed and answers bad input with a refusal number; nothing that the bytes hold stops or
 * harms it. Look at `refusal` first: it is 0 if there is an answer, and on a refusal every other number is 0 (but for
 * `next` of vq_step and `stream` of vq_feed, which stay as they were handed in) and nothing is written.
 *
 * What the caller sees to: `bytes` (`frame`, `packet`, `content`) points to `count` readable bytes, `table` to `numbers`
 * writable 32-bit numbers, `output` and `carry` to `room` writable bytes; what is written lies apart from all else that is
 * lent. None is a null pointer, also where its size is 0. The functions keep no state and no pointer, so any number of
 * threads may call them at once.
 *
 * C99, and C++. All functions are in libvellanquor.a (host/archive.sh builds it), which needs no library but the C library's
 * memcpy and memset. It is built for x86-64 Linux only.
 */
#ifndef VELLANQUOR_H
#define VELLANQUOR_H

#include <stddef.h>
#include <stdint.h>

#ifdef __cplusplus
extern "C" {
#endif

/* Dialects. */
#define VQ_SIRAD 0u
#define VQ_MMWAVE 1u
#define VQ_VITAL_SIGNS 2u

/* The most bytes that one call is lent, and that a stream has. */
#define VQ_MAX_BYTES 1048576u

/* Numbers in a table's row: the frame's place, its length, its kind. */
#define VQ_ROW 3u

/* The greatest distance that vq_anyone_close is asked for, in millimetres. */
#define VQ_MAX_DISTANCE 1000000u

/* Editions of the millimetre rule; they differ only at exact halves. */
#define VQ_EDITION_1 1u /* halves away from zero */
#define VQ_EDITION_2 2u /* halves to the even neighbour */

/* Kinds. */
#define VQ_KIND_RANGE 1u        /* SiRad R: magnitudes, 16 bytes and one for each data character */
#define VQ_KIND_PHASE 2u        /* SiRad P: phases, likewise */
#define VQ_KIND_CFAR 3u         /* SiRad C: CFAR output, likewise */
#define VQ_KIND_TARGETS 4u      /* SiRad T: sixteen blocks, each a target or empty, 230 bytes */
#define VQ_KIND_STATUS 5u       /* SiRad U: status update, 26 bytes */
#define VQ_KIND_ERROR 6u        /* SiRad E: error flags, 8 bytes */
#define VQ_KIND_PACKET 16u      /* mmWave packet, a multiple of 32 from 64 to 32768 bytes */
#define VQ_KIND_VITAL_SIGNS 17u /* vital-signs packet, a multiple of 4 from 40 to 32768 bytes, not 44 */

/* States of a judgement. A refusal has state 0, which is none of them. */
#define VQ_WHOLE 1u   /* a frame stands at the place: kind and length are given */
#define VQ_BAD 2u     /* none stands there, whatever follows: the reason is given */
#define VQ_WAITING 3u /* none stands there yet */

/* Reasons of a bad SiRad place: the first byte that fails. */
#define VQ_BAD_START 10u      /* no start marker */
#define VQ_BAD_IDENTIFIER 11u /* unknown identifier */
#define VQ_BAD_HEX 12u        /* not an upper-case hex digit */
#define VQ_BAD_CHARACTER 13u  /* not a character, a byte 34 to 254 */
#define VQ_BAD_STOP 14u       /* wrong stop marker */
#define VQ_BAD_EMPTY 17u      /* a byte other than 0 in a block whose first byte is 0 */

/* Reasons of a bad mmWave or vital-signs place: the first field that fails. */
#define VQ_BAD_MAGIC 20u    /* not the magic */
#define VQ_BAD_TOTAL 21u    /* the total length is not legal */
#define VQ_BAD_COUNT 22u    /* over 32 records, or more than fit, or none in a packet longer than 64 (vital signs: 40) bytes */
#define VQ_BAD_TYPE 23u     /* no legal payload length of this type lets the records fit the total length */
#define VQ_BAD_LENGTH 24u   /* the payload length is not legal for its type, or the records don't fit with it */
#define VQ_BAD_REPEATED 25u /* mmWave only: a known type (1 to 9) again, or 4 and 8 together; asked before 23 */
#define VQ_BAD_FIXED 26u    /* vital signs only: the number at 28 is not 99, or the subframe is not 0 */

/* States of a reading. */
#define VQ_STOPPED_WAITING 0u /* open reading only: the place `next` waits for more bytes */
#define VQ_TABLE_FULL 1u      /* a frame stands at `next` and no row is left for it */
#define VQ_AT_END 2u          /* closed reading only: everything is read */

/* Refusals. */
#define VQ_REFUSED_DIALECT 1u    /* a dialect other than 0, 1 and 2; vq_anyone_close: other than 1 */
#define VQ_REFUSED_PLACE 2u      /* an offset beyond the count; equal is fine */
#define VQ_REFUSED_SIZE 3u       /* more than VQ_MAX_BYTES bytes, or a stream of more */
#define VQ_REFUSED_FRAME 5u      /* the bytes are not exactly one whole frame of the wanted kind */
#define VQ_REFUSED_INDEX 6u      /* an index at or over the count, or no record starts at the place */
#define VQ_REFUSED_NO_POINTS 7u  /* no record of type 1 */
#define VQ_REFUSED_NOT_FINITE 30u /* the float is infinite or no number */
#define VQ_REFUSED_TOO_FAR 31u   /* the float's magnitude is over 1000 m */
#define VQ_REFUSED_EDITION 32u   /* an edition other than 1 and 2 */
#define VQ_REFUSED_DISTANCE 33u  /* a distance over VQ_MAX_DISTANCE */
#define VQ_REFUSED_NO_HEADER 40u /* a command of under 4 bytes */
#define VQ_REFUSED_REST_BIT 41u  /* a rest bit of the header word is set */
#define VQ_REFUSED_NO_LENGTH 42u /* a command length of 0 */
#define VQ_REFUSED_COUNT 43u     /* the byte count is not four times the command length */
#define VQ_REFUSED_CODE 44u      /* an unknown command code */
#define VQ_REFUSED_PAYLOAD 45u   /* the payload count is wrong for the code, or over 30 */
#define VQ_REFUSED_SELECTION 46u /* a selection word is out of range */
#define VQ_REFUSED_ENCODING 50u  /* a value without an encoding, or a byte that is no character */
#define VQ_REFUSED_OUTPUT 51u    /* the output is too short */
#define VQ_REFUSED_DATA 52u      /* over 65,535 data characters */
#define VQ_REFUSED_KIND 53u      /* a kind that has no data frame */
#define VQ_REFUSED_EMPTY_TARGET 54u /* a target whose written block would be all `0`, which is an empty block */
#define VQ_REFUSED_CARRY 60u     /* the bytes left waiting exceed the carry buffer */
#define VQ_REFUSED_ROWS 61u      /* the call's frames exceed the row table */
#define VQ_REFUSED_STREAM 62u    /* the stream counts more waiting bytes than the carry buffer holds */

/*
 * The judgement on the bytes from `offset` on.
 *   refusal  0, or 1, 3, 2: the first of them in this order that applies
 *   state    VQ_WHOLE, VQ_BAD or VQ_WAITING; 0 with a refusal
 *   kind     of the frame, if whole; else 0
 *   reason   10 to 14, 17 or 20 to 26, if bad; else 0
 *   length   of the frame, if whole; else 0
 * More bytes behind these never change a whole or a bad judgement. The place at the very end waits.
 */
struct vq_judgement {
    uint32_t refusal;
    uint32_t state;
    uint32_t kind;
    uint32_t reason;
    uint64_t length;
};

struct vq_judgement vq_judge(uint32_t dialect, const uint8_t *bytes, size_t count, size_t offset);

/*
 * A coordinate in millimetres, from the 32 bits of a float in metres: the whole number nearest to 1000 times its exact
 * value, halves by the edition: 0.0625 m is 63 in edition 1 and 62 in edition 2, and -0.0625 m is -63 and -62.
 *   refusal  0, or 32, then 30 or 31
 *   value    -1000000 to 1000000
 */
struct vq_millimetres {
    uint32_t refusal;
    int32_t value;
};

struct vq_millimetres vq_millimetres(uint32_t edition, uint32_t bits);

/*
 * What a data character of a P frame means: the whole number of hundredths of a degree nearest to
 * 1800 (character - 144) / 11, which is never a half. 90 (`Z`) is -8836.
 *   refusal  0, or 50 for a byte other than 34 to 254
 *   value    -18000 to 18000
 * It takes a multiplication and a shift: no divide instruction, no call, no loop and no table.
 */
struct vq_centidegrees {
    uint32_t refusal;
    int32_t value;
};

struct vq_centidegrees vq_centidegrees(uint8_t character);

/*
 * A reading from the first byte on. It writes a row (place, length, kind) for each frame and goes on behind it; at any
 * other place it counts one skipped byte and goes on one byte later. A table of `numbers` numbers has room for
 * numbers / 3 rows; what is behind the written rows stays as it was.
 *   refusal  0, or 1, 3: the first of them in this order that applies
 *   state    VQ_STOPPED_WAITING, VQ_TABLE_FULL or VQ_AT_END
 *   rows     written to the table
 *   skipped  bytes that no row covers, up to `next`
 *   next     the place where the reading stopped: row lengths and skipped bytes add up to it
 */
struct vq_reading {
    uint32_t refusal;
    uint32_t state;
    uint64_t rows;
    uint64_t skipped;
    uint64_t next;
};

/*
 * The open reading, for a line that goes on: it stops at the first place that waits. Keep the bytes from `next` on and
 * read again when more have come; rows once given never change.
 */
struct vq_reading vq_open_reading(uint32_t dialect, const uint8_t *bytes, size_t count, uint32_t *table, size_t numbers);

/*
 * The closed reading, for a capture that is over: it skips a place that waits and goes on to the end. No row with state
 * VQ_AT_END says that no frame stands anywhere. With state VQ_TABLE_FULL a reading of the bytes from `next` on goes on
 * where this one stopped.
 */
struct vq_reading vq_closed_reading(uint32_t dialect, const uint8_t *bytes, size_t count, uint32_t *table,
                                    size_t numbers);

/*
 * The feeder, for bytes as a port gives them: none, some or many a call. It keeps the bytes that wait in a carry buffer that
 * the caller lends, and a stream's state is handed in and answered by value. A call reads the waiting bytes and then the
 * new ones as one: it writes a row (place, length, kind) for each frame, its place counted from the stream's start, and
 * leaves the bytes that now wait at the carry's start. Table numbers behind the rows and carry bytes behind the waiting ones
 * stay as they were. However a stream's bytes are cut into calls, the rows, joined, are those of vq_open_reading of all of
 * them at once, and the stream stands at its `next`.
 *
 * Where a stream stands between two calls: the place of its first waiting byte, and how many bytes wait. Both are 0 before a
 * stream's first call. Any numbers may be handed in: what 62 and 3 let pass is read.
 */
struct vq_stream {
    uint64_t place;
    uint64_t waiting;
};

/*
 *   refusal  0, or 1, 62, 3, 61, 60: the first of them in this order that applies
 *   rows     written to the table; 0 with a refusal
 *   stream   for the next call; with a refusal as it was handed in
 * A refusal changes neither the carry nor the table. What a host does after one:
 *   60  it lends a larger carry, with the waiting bytes copied to its start, and makes the same call again. One of 65,550
 *       bytes is never too small for SiRad, nor one of 32,767 for packets.
 *   61  it makes the call again with a larger table, or with fewer of the bytes and then with the others; where one byte is
 *       too many, with a larger table. One of (waiting + count) / 8 rows is never too small.
 *   3   the stream is over: place, waiting and new bytes together are more than VQ_MAX_BYTES. A new one begins at place 0 with
 *       the waiting bytes kept: it hands in {0, waiting} with the carry as it is, and adds the old place to the places
 *       of the new stream's rows itself. Should waiting and new bytes alone be more, it feeds fewer.
 * With a table of (waiting + count) / 8 rows and a carry as long as the longest frame (65,551 bytes; packets 32,768) each
 * byte is judged once a call, else twice. A frame's bytes are no longer in the carry when its row is there: a host that
 * reads fields keeps the bytes from `stream.place` on itself.
 * A call needs up to 140 KiB of stack.
 */
struct vq_fed {
    uint32_t refusal;
    uint64_t rows;
    struct vq_stream stream;
};

struct vq_fed vq_feed(uint32_t dialect, struct vq_stream stream, uint8_t *carry, size_t room, const uint8_t *bytes,
                      size_t count, uint32_t *table, size_t numbers);

/*
 * Fields. A reader takes bytes that are exactly one whole frame or packet, as a row of a reading names
 * them. A writer writes to the start of the output and changes the bytes it produced only; it answers their number.
 */
struct vq_written {
    uint32_t refusal;
    uint64_t size;
};

/*
 * The data of a frame R, P or C: its kind (1 to 3), and the part of the frame that holds its characters. Those of a P
 * frame are phases (vq_centidegrees).
 *   refusal  0, or 5; in writing 0, or 53, 52, 50, 51: the first of them in this order that applies
 */
struct vq_data_frame {
    uint32_t refusal;
    uint32_t kind;
    uint64_t start;
    uint64_t size;
};

struct vq_data_frame vq_read_data(const uint8_t *frame, size_t count);
struct vq_written vq_write_data(uint8_t *output, size_t room, uint32_t kind, const uint8_t *content, size_t count);

/*
 * A T frame, 230 bytes: sixteen blocks in wire order, each a target or empty. Gain and magnitude are characters (34 to
 * 254), format and number 0 to 15. A block is empty if its first ten bytes are `0`, or all fourteen bytes have value 0:
 * look at `empty` first. Writing ignores the refusal, so a frame that was read can be written as it is; empty blocks of
 * either form are written as fourteen `0`.
 *   refusal  0, or 5; in writing 0, or 50, 54, 51: the first of them in this order that applies to the frame
 *   empty    1 for an empty block, whose other fields are 0 in reading and ignored in writing; 0 for a target; in writing
 *            any other number is refused with 50
 * A target with number 0, distance 0, magnitude 48 (`0`) and phase 0 would be read as an empty block: writing refuses it
 * with 54.
 */
struct vq_target {
    uint8_t number;
    uint8_t empty;
    uint16_t distance;
    uint8_t magnitude;
    int16_t phase;
};

struct vq_target_frame {
    uint32_t refusal;
    uint8_t format;
    uint8_t gain;
    struct vq_target targets[16];
};

struct vq_target_frame vq_read_targets(const uint8_t *frame, size_t count);
struct vq_written vq_write_targets(uint8_t *output, size_t room, struct vq_target_frame frame);

/*
 * A U frame, 26 bytes. The accuracy is in tenths of a millimetre, as sent, and in whole millimetres, halves by the edition: 5
 * tenths are 1 in edition 1 and 0 in edition 2. Writing takes the tenths, and no edition.
 *   refusal  0, or 5, 32; in writing 0, or 50, 51
 */
struct vq_status_frame {
    uint32_t refusal;
    uint8_t format;
    uint8_t gain;
    uint16_t accuracy;
    uint16_t accuracy_mm;
    uint16_t max_range;
    uint16_t ramp_time;
    uint16_t bandwidth;
    uint16_t time_difference;
};

struct vq_status_frame vq_read_status(uint32_t edition, const uint8_t *frame, size_t count);
struct vq_written vq_write_status(uint8_t *output, size_t room, uint8_t format, uint8_t gain, uint16_t accuracy,
                                  uint16_t max_range, uint16_t ramp_time, uint16_t bandwidth,
                                  uint16_t time_difference);

/*
 * An E frame, 8 bytes.
 *   refusal  0, or 5; in writing 0, or 51
 */
struct vq_error_frame {
    uint32_t refusal;
    uint16_t flags;
};

struct vq_error_frame vq_read_error(const uint8_t *frame, size_t count);
struct vq_written vq_write_error(uint8_t *output, size_t room, uint16_t flags);

/*
 * The header of a packet of the kind named, VQ_KIND_PACKET or VQ_KIND_VITAL_SIGNS; any other kind is refused with 5. In a
 * vital-signs packet `objects` is 99 and `subframe` 0.
 *   refusal  0, or 5
 */
struct vq_header {
    uint32_t refusal;
    uint32_t version;
    uint32_t total;
    uint32_t platform;
    uint32_t frame;
    uint32_t time;
    uint32_t objects;
    uint32_t records;
    uint32_t subframe;
};

struct vq_header vq_header(uint32_t kind, const uint8_t *packet, size_t count);

/*
 * Record `index` of a packet of the kind named, counted from 0: its type (`tag`), and the part of the packet that is its
 * payload.
 *   refusal  0, or 5, 6
 */
struct vq_record {
    uint32_t refusal;
    uint32_t tag;
    uint64_t start;
    uint64_t length;
};

struct vq_record vq_record(uint32_t kind, const uint8_t *packet, size_t count, size_t index);

/*
 * The record of a packet of the kind named that starts at `place`, and the place behind it. From 40 on, steps give record
 * 0, 1, .. and then 6.
 *   refusal  0, or 5, 6: then `next` is `place`
 */
struct vq_step {
    uint32_t refusal;
    uint32_t tag;
    uint64_t start;
    uint64_t length;
    uint64_t next;
};

struct vq_step vq_step(uint32_t kind, const uint8_t *packet, size_t count, size_t place);

/*
 * Point `index` of an mmWave packet's record of type 1, of which it has one at most: X, Y and Z in millimetres by the
 * edition, as vq_millimetres gives them, and the 32 bits of the Doppler velocity.
 *   refusal  0, or 5, 7, 6, 32, then 30 or 31 of the first coordinate that has one
 */
struct vq_point {
    uint32_t refusal;
    int32_t x;
    int32_t y;
    int32_t z;
    uint32_t doppler;
};

struct vq_point vq_point(uint32_t edition, const uint8_t *packet, size_t count, size_t index);

/*
 * Is anyone close? Whether some point of a capture of mmWave packets (dialect 1, and no other) has X, Y and Z each at most
 * `distance` millimetres in magnitude, and which is the first. It looks at every point, as vq_point gives them by the
 * edition, of every packet of vq_closed_reading with room for all, and stops at the first that is close; a point that
 * vq_point refuses with 30 or 31 is not close. It needs no table.
 *   refusal  0, or 1, 3, 32, 33: the first of them in this order that applies
 *   close    1 for yes, 0 for no
 *   place    of the first packet with a close point; 0 with a no
 *   index    of the first close point of that packet, as vq_point counts them; 0 with a no
 */
struct vq_closeness {
    uint32_t refusal;
    uint32_t close;
    uint64_t place;
    uint64_t index;
};

struct vq_closeness vq_anyone_close(uint32_t dialect, uint32_t edition, uint32_t distance, const uint8_t *bytes,
                                    size_t count);

/*
 * A DemoRad command: the bytes are exactly one command. Words behind the count are 0 in reading; writing ignores them,
 * and the refusal.
 *   refusal  0, or 40 to 46, the least that applies; in writing 0, or 44, 45, 46, 50, 51: the first of them in this order
 *            that applies
 *   rd       the header's RD bit, 0 or 1; in writing any other number is refused with 50
 *   code     one of the seven command codes, 0x6005 to 0x9017; in writing any other number is refused with 44
 *   count    the payload words, 0 to 30, without the header; in writing one that the code does not allow is refused with 45
 */
struct vq_command {
    uint32_t refusal;
    uint32_t rd;
    uint32_t code;
    uint32_t count;
    uint32_t words[30];
};

struct vq_command vq_read_command(const uint8_t *bytes, size_t count);
struct vq_written vq_write_command(uint8_t *output, size_t room, struct vq_command command);

#ifdef __cplusplus
}
#endif

#endif
