#!/usr/bin/env python3
"""The slices that judge_cases reads, and the lines it prints of them, from paper 01 ("SiRad", "mmWave", "Judging a place", "Values at
the edges"), paper 02 (i), (ii) and (vii) and documents 000, 002 and 004 alone. `judge_cases.py stdin` writes the slices, each behind its
length in four bytes.

The judgement of a packet is read off the paper by searching: a length, a type or a record count passes if some choice of what
follows ends so that L is the smallest multiple of 32 not below the end of the last record, or, for vital signs, that end itself.
"""

import pathlib
import struct
import sys
from functools import lru_cache

STDIN = pathlib.Path(__file__).resolve().parent.parent.parent / "crates" / "judge_cases" / "stdin"


# -- SiRad

HEX = frozenset(b"0123456789ABCDEF")
CHARACTER = frozenset(range(34, 255))
BLOCK = [(1, HEX, 12), (4, HEX, 12), (1, CHARACTER, 13), (4, HEX, 12), (4, CHARACTER, 13)]
VALUE_0 = [(14, b"\0", 17)]
BODY = {
    ord("T"): (4, [(1, HEX, 12), (1, CHARACTER, 13)]),
    ord("U"): (5, [(1, HEX, 12), (1, CHARACTER, 13)] + 5 * [(4, HEX, 12)]),
    ord("E"): (6, [(4, HEX, 12)]),
}
SIZED = {ord("R"): 1, ord("P"): 2, ord("C"): 3}


def sirad(bs):
    """("whole", kind, length), ("bad", reason) or ("waiting",)."""
    if len(bs) == 0:
        return ("waiting",)
    if bs[0] != ord("!"):
        return ("bad", 10)
    if len(bs) == 1:
        return ("waiting",)
    if bs[1] in SIZED:
        kind = SIZED[bs[1]]
        size = bytes(bs[2:6])
        for b in size:
            if b not in HEX:
                return ("bad", 12)
        if len(size) < 4:
            return ("waiting",)
        at, fields = 6, [(8, CHARACTER, 13), (int(size, 16), CHARACTER, 13)]
    elif bs[1] in BODY:
        kind, fields = BODY[bs[1]]
        at = 2
        if kind == 4:
            # A first byte 0 commits the other thirteen bytes of its block.
            fields = sum((VALUE_0 if bs[4 + 14 * i:5 + 14 * i] == b"\0" else BLOCK for i in range(16)), fields)
    else:
        return ("bad", 11)
    for count, allowed, reason in fields + [(1, b"\r", 14), (1, b"\n", 14)]:
        part = bs[at:at + count]
        if not set(part) <= set(allowed):
            return ("bad", reason)
        if len(part) < count:
            return ("waiting",)
        at += count
    return ("whole", kind, at)


# -- Packets

MAGIC = bytes([0x02, 0x01, 0x04, 0x03, 0x06, 0x05, 0x08, 0x07])
WAITING = ("waiting",)


def number(data, offset):
    return int.from_bytes(data[offset:offset + 4], "little")


class MmWave:
    kind = 16

    def total(total):
        return total % 32 == 0 and 64 <= total <= 32768

    def objects(objects):
        return True

    def records(total, records):
        return records <= 32 and 8 * records <= total - 40 and (records != 0 or total == 64)

    def subframe(subframe):
        return True

    def legal(tag, objects, size):
        """Is this payload length legal for the type?"""
        if tag == 1:
            return objects != 0 and size == 16 * objects
        if tag == 7:
            return objects != 0 and size == 4 * objects
        if tag in (2, 3, 5):
            return size % 2 == 0
        if tag in (4, 8):
            return size % 4 == 0
        if tag == 6:
            return size == 24
        if tag == 9:
            return size == 28
        return True

    def again(tag, seen):
        """Does a known type occur again, or 8 with 4 present, or 4 with 8?"""
        return (1 <= tag <= 9 and tag in seen) or (tag == 8 and 4 in seen) or (tag == 4 and 8 in seen)

    def ends_well(end, total):
        """Is the total length the smallest multiple of 32 not below the end?"""
        return end <= total and -(-end // 32) * 32 == total


class VitalSigns:
    kind = 17

    def total(total):
        return total % 4 == 0 and 40 <= total <= 32768 and total != 44

    def objects(objects):
        return objects == 99

    def records(total, records):
        return records <= 32 and 8 * records <= total - 40 and (records == 0) == (total == 40)

    def subframe(subframe):
        return subframe == 0

    def legal(tag, objects, size):
        if tag in (1, 4):
            return size == {1: 24, 4: 20}[tag]
        return (tag == 2 and size % 4 == 0) or (tag == 3 and size % 16 == 0)

    def again(tag, seen):
        return False

    def ends_well(end, total):
        return end == total


@lru_cache(maxsize=None)
def some_end(dialect, least, total):
    """Does some end, from the least on by what a payload of one record can add, end well? mmWave's free types have every length and may
    repeat; all lengths of vital signs are multiples of 4, and type 2 has each of them."""
    return any(dialect.ends_well(end, total) for end in range(least, total + 1, 1 if dialect is MmWave else 4))


def rest_can_end(dialect, place, records, total):
    """Can so many records of any types and lengths from this place on end well?"""
    if records == 0:
        return dialect.ends_well(place, total)
    return some_end(dialect, place + 8 * records, total)


@lru_cache(maxsize=None)
def some_length(dialect, tag, objects, place, records, total):
    """Does some legal length of the type, in the first of so many records, let them end well?"""
    longest = total - place - 8
    return any(
        dialect.legal(tag, objects, size) and rest_can_end(dialect, place + 8 + size, records - 1, total)
        for size in range(longest, -1, -1)
    )


def packet_judgement(dialect, data):
    for i, byte in enumerate(data[:8]):
        if byte != MAGIC[i]:
            return ("bad", 20)
    total = number(data, 12)
    for end, reason, passes in [(16, 21, lambda: dialect.total(total)),
                                (32, 26, lambda: dialect.objects(number(data, 28))),
                                (36, 22, lambda: dialect.records(total, number(data, 32))),
                                (40, 26, lambda: dialect.subframe(number(data, 36)))]:
        if len(data) < end:
            return WAITING
        if not passes():
            return ("bad", reason)
    objects, place, seen = number(data, 28), 40, []
    for left in range(number(data, 32), 0, -1):
        if len(data) < place + 4:
            return WAITING
        tag = number(data, place)
        if dialect.again(tag, seen):
            return ("bad", 25)
        seen.append(tag)
        if not some_length(dialect, tag, objects, place, left, total):
            return ("bad", 23)
        if len(data) < place + 8:
            return WAITING
        size = number(data, place + 4)
        if not dialect.legal(tag, objects, size) or not rest_can_end(dialect, place + 8 + size, left - 1, total):
            return ("bad", 24)
        place += 8 + size
        if len(data) < place:
            return WAITING
    assert dialect.ends_well(place, total)
    if len(data) < total:
        return WAITING
    return ("whole", dialect.kind, total)


# -- The slices

def starts():
    """Nothing, the start marker alone, no start, a space in front, identifiers that no frame has, two starts."""
    return [b"", b"!", b"E0000\r\n", b" !E0000\r\n", b"!I0000\r\n", b"!e0000\r\n", b"!!E0000\r\n"]


def error_frames():
    """Whole, with more behind it, cut, a lower-case digit, one over F, no LF yet, no LF, LF first, a digit too many."""
    return [b"!E0000\r\n", b"!E0000\r\n !E0001\r\n", b"!E00", b"!E00a0\r\n", b"!E00G0\r\n", b"!E0000\r", b"!E0000\r!E0000\r\n",
            b"!E0000\n\r", b"!E00000\r\n"]


def data_frames():
    """A lower-case size, a start in the reserved bytes, a start and a space in the data, whole, short, long, a stop as size; the
    characters at the limits and the bytes beside them."""
    limits = [b"!P000100000000" + bytes([c]) + b"\r\n" for c in (33, 34, 254, 255)]
    return [b"!R000f00000000", b"!R00010000!000x\r\n", b"!R0003000000000!x\r\n", b"!R000300000000x x\r\n",
            b"!R000300000000xyz\r\n", b"!R000300000000xy\r\n", b"!R000300000000xyzw\r\n", b"!R00\r\n"] + limits


def whole_frames():
    """A frame of each kind, all free bytes `0`: whole, and without its last byte."""
    heads = [(b"!R0000", 16), (b"!P0001", 17), (b"!C00FF", 271), (b"!T5Z00", 230), (b"!U5Z00", 26), (b"!E0001", 8)]
    frames = [head + b"0" * (length - len(head) - 2) + b"\r\n" for head, length in heads]
    return [part for frame in frames for part in (frame, frame[:-1])]


def empty_blocks():
    """T frames of two targets and fourteen empty blocks: of `0`, of value 0, by turns, with a target behind them; sixteen of value 0. One
    with a byte behind it, and cut before, in and behind a block of value 0. Then bytes that end with the one that breaks such a block; a
    block that goes on as one of `0`; a byte 0 in a block of `0`, in a target, as format, gain and stop; reserved bytes at the limits."""
    two, zeros, value_0, last = b"!T5Z10200Z80000000" + b"20400Z00640000", b"0" * 14, bytes(14), b"F1234\"7FFF0000"
    reserved = b"0000000000\"zZ\xfe"
    frames = [two + rest + b"\r\n" for rest in (14 * zeros, 14 * value_0, 7 * (value_0 + reserved), 6 * (zeros + value_0) + value_0 + last)]
    frames.append(b"!T5Z" + 16 * value_0 + b"\r\n")
    whole = frames + [frames[1] + b"\0"] + [frames[1][:end] for end in (32, 33, 45, 46, 47, 227, 228, 229)]
    broken = [frames[1][:32 + i] + byte for i in (1, 4, 5, 9, 10, 13) for byte in (b"0", b"\1", b"\xff")]
    behind = [two + value_0[:i] + zeros[i:] + 13 * zeros + b"\r\n" for i in (1, 9, 10, 13)]
    zero = [frames[0][:32 + i] + b"\0" + frames[0][33 + i:] for i in (0, 1, 5, 6, 9, 10, 13)]
    zero += [frames[1][:i] + b"\0" + frames[1][i + 1:] for i in (2, 3, 4, 5, 9, 14, 18, 228, 229)]
    marked = [two + zeros[:10] + byte + b"000" + 13 * value_0 + b"\r\n" for byte in (b"!", b"\"", b"\xfe", b"\xff")]
    return whole + broken + behind + zero + marked


def packet(total, objects, records, behind=b"", ends=None, subframe=3):
    """A header with free fields of their own, what follows it, and zeros up to the end; or only the first bytes of that."""
    ends = total if ends is None else ends
    fields = [0x03050004, total, 0xA6843, 7, 0xFFFFFFFF, objects, records, subframe]
    return (MAGIC + struct.pack("<8I", *fields) + behind).ljust(ends, b"\0")[:ends]


def record(tag, size, payload=b""):
    return struct.pack("<2I", tag, size) + payload


def edges():
    """The packet lines of the paper's table."""
    return [packet(64, 0, 0), packet(64, 0, 1, record(10, 16)), packet(64, 0, 1, record(10, 17), 48),
            packet(64, 0, 1, record(6, 24), 44), packet(96, 0, 1, record(6, 24))]


def refused_packets():
    """By reason: the last byte of the magic; totals; counts; types without a length that fits; lengths."""
    whole = packet(64, 0, 0)
    magic = whole[:7] + b"\x06" + whole[8:]
    totals = [packet(total, 0, 0, ends=16) for total in (32, 80, 32800, 2**32 - 32)]
    counts = [packet(96, 0, 0, ends=36), packet(64, 0, 4, ends=36), packet(32768, 0, 33, ends=36), packet(64, 0, 2**29, ends=36)]
    types = [packet(64, 0, 1, record(1, 0), 44), packet(64, 2**28, 1, record(1, 0), 44), packet(64, 2**30, 1, record(7, 0), 44)]
    lengths = [packet(64, 0, 1, record(2, 15), 48), packet(64, 0, 1, record(4, 14), 48), packet(96, 1, 1, record(10, 16), 48)]
    return [magic] + totals + counts + types + lengths


def three_records():
    """Points, statistics and a free record in 160 bytes: whole, with a byte behind it, and cut at and inside its fields."""
    whole = packet(160, 2, 3, record(1, 32, bytes(32)) + record(6, 24, bytes(24)) + record(10, 10, bytes(range(10))))
    cuts = [0, 7, 8, 11, 15, 16, 31, 35, 36, 39, 40, 43, 44, 47, 48, 80, 84, 122, 159]
    return [whole, whole + b"\x02"] + [whole[:end] for end in cuts]


def most_records():
    """Thirty-two records without payloads fill 320 bytes, and neither 288 nor 352."""
    return [packet(total, 0, 32, 32 * record(10, 0)) for total in (288, 320, 352)]


# A legal payload length of each known type with one object; any other type has 5 bytes.
SIZES = {1: 16, 2: 2, 3: 4, 4: 8, 5: 6, 6: 24, 7: 4, 8: 12, 9: 28}


def of_types(*tags, total=None, records=None):
    """A packet of one object with a record of each of these types; L and K are theirs or these."""
    body = b"".join(record(tag, SIZES.get(tag, 5), bytes(SIZES.get(tag, 5))) for tag in tags)
    fits = -(-max(64, 40 + len(body)) // 32) * 32
    return packet(total or fits, 1, records or len(tags), body)


def pairs():
    """Every two known types. Eleven pairs are refused: each type with itself, 4 with 8, 8 with 4."""
    return [of_types(one, other) for one in range(1, 10) for other in range(1, 10)]


def free_types():
    """Types outside 1 to 9: twice, also with bytes or remainders of a known type; beside the known types that they could be taken for."""
    free = [0, 10, 11, 33, 36, 40, 65, 255, 256, 257, 260, 264, 65537, 2**24 + 1, 2**31 + 1, 2**32 - 1]
    taken_for = [(33, 1), (1, 65), (257, 1), (1, 257), (65537, 1), (1, 2**24 + 1), (4, 264), (260, 8), (8, 36), (4, 40), (0, 9), (9, 10)]
    return [of_types(tag, tag) for tag in free] + [of_types(*tags) for tags in taken_for + [(10, 11, 10, 11), (1, 10, 10, 2, 10)]]


def type_again():
    """A second type 1, 8 behind 4, and a third record with the type of the first: cut in the payload before the type, before, inside and
    right behind it. The first and the third of one type, or 4 and 8, with a known and a free type between; eight types that may stand
    together, and each type behind them; the last of 32 records."""
    cut = [(of_types(1, 1), 64), (of_types(4, 8), 56), (of_types(1, 2, 1), 74), (of_types(8, 10, 4), 73)]
    cuts = [whole[:place + i] for whole, place in cut for i in (-1, 0, 1, 3, 4, 7, 8)]
    thirds = [of_types(one, between, other) for one, other in ((1, 1), (6, 6), (4, 8), (8, 4)) for between in (2, 10)]
    eight, other_eight = [1, 2, 3, 4, 5, 6, 7, 9], [9, 8, 7, 6, 5, 3, 2, 1]
    together = [of_types(*eight), of_types(*other_eight)]
    behind = [of_types(*eight, tag) for tag in range(11)] + [of_types(*other_eight, tag) for tag in (4, 8, 10)]
    return cuts + thirds + together + behind + [of_types(1, *30 * [10], last) for last in (1, 9)]


def type_again_first():
    """A type again that could not fit comes as 25; a fresh one there as 23. What fails before it keeps its reason: 24 of the record before,
    22, and 23 of the type itself in its first record."""
    unfit = [(96, 6, 6), (96, 6, 9), (128, 1, 1), (128, 1, 7), (160, 9, 9), (160, 9, 6)]
    lengths = [packet(96, 1, 2, record(2, 3, bytes(3)) + record(2, 2)), packet(96, 1, 2, record(1, 15, bytes(15)) + record(1, 16))]
    counts = [of_types(1, 1, records=33), of_types(1, 1, total=64, records=4)]
    return [of_types(*tags, total=total) for total, *tags in unfit] + lengths + counts + [of_types(9, 9, total=64)]


def vital(total, records, behind=b"", ends=None, objects=99, subframe=0):
    return packet(total, objects, records, behind, ends, subframe)


def vital_edges():
    """Paper 02's numbers: the fixed fields, whole and cut; totals and counts at their limits; each type with its lengths, also none; types
    and lengths that do not fit; types that document 002 does not name."""
    fixed = [vital(40, 0), vital(40, 0, objects=98), vital(40, 0, objects=98, ends=31), vital(40, 0, subframe=1),
             vital(40, 0, subframe=1, ends=39), vital(32768, 0, ends=16), vital(32772, 0, ends=16), vital(36, 0, ends=16)]
    totals = [vital(44, 0, ends=16), vital(50, 1, ends=16), vital(48, 0, ends=36), vital(40, 1, ends=36), vital(300, 33, ends=36),
              vital(64, 4, ends=36)]
    whole = [vital(72, 1, record(1, 24)), vital(68, 1, record(4, 20)), vital(48, 1, record(2, 0)), vital(48, 1, record(3, 0)),
             vital(52, 1, record(2, 4)), vital(64, 1, record(3, 16)), vital(296, 32, 32 * record(2, 0))]
    refused = [vital(72, 1, record(4, 24), 44), vital(68, 1, record(1, 20), 44), vital(104, 2, record(1, 28), 48),
               vital(52, 1, record(3, 4), 44), vital(64, 1, record(3, 12), 48), vital(64, 1, record(2, 18), 48),
               vital(64, 1, record(5, 16), 44), vital(64, 1, record(0, 16), 44), vital(300, 32, record(2, 8), 48)]
    return fixed + totals + whole + refused


def four_types():
    """A packet with all four types of document 002: whole, with a byte behind it, and cut at and inside its fields."""
    records = record(1, 24, bytes(24)) + record(2, 12, bytes(12)) + record(3, 32, bytes(32)) + record(4, 20, bytes(20))
    whole = vital(160, 4, records)
    cuts = [28, 31, 32, 35, 36, 39, 40, 44, 47, 48, 71, 72, 159]
    return [whole, whole + b"\x02"] + [whole[:end] for end in cuts]


def vital_again():
    """Types that occur again in vital signs, where they may: next to each other and with another between; cut before, inside and behind
    the type."""
    signs, samples, system = record(1, 24, bytes(24)), record(3, 16, bytes(16)), record(4, 20, bytes(20))
    next_to = [vital(104, 2, 2 * signs), vital(64, 2, record(2, 0) + record(2, 8)), vital(88, 2, 2 * samples), vital(96, 2, 2 * system)]
    between = [vital(112, 3, signs + record(2, 0) + signs), vital(96, 3, samples + record(2, 0) + samples)]
    return next_to + between + [next_to[3][:end] for end in (68, 71, 72, 75, 76, 95)]


def both_dialects():
    """A packet of both: 99 objects, subframe 0, and L, a multiple of 32, the end of the last record; and with another subframe. With a type
    again it is one of vital signs alone."""
    return [vital(64, 1, record(2, 16)), vital(128, 2, record(2, 24, bytes(24)) + record(3, 48)), vital(64, 1, record(2, 16), subframe=1),
            vital(128, 2, record(2, 24, bytes(24)) + record(2, 48))]


def slices():
    return (starts() + error_frames() + data_frames() + whole_frames() + empty_blocks() + edges() + refused_packets() + three_records()
            + most_records() + pairs() + free_types() + type_again() + type_again_first() + vital_edges() + four_types() + vital_again()
            + both_dialects())


def main():
    given = b"".join(struct.pack("<I", len(s)) + s for s in slices())
    if sys.argv[1:] == ["stdin"]:
        sys.stdout.buffer.write(given)
        return
    if STDIN.read_bytes() != given:
        sys.exit("crates/judge_cases/stdin holds other slices")
    for data in slices():
        print(len(data), "sirad", *sirad(data), "mmwave", *packet_judgement(MmWave, data),
              "vital", *packet_judgement(VitalSigns, data))


main()
