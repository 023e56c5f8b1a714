//! Judgements over grids: a SiRad frame of each kind, of T also with empty blocks of both forms, cut anywhere and with every
//! value of every byte; packets of both packet dialects at the limits of every total length, with all types, payload lengths
//! and object counts, mmWave with types that come again at all places, false starts, cut and damaged.
//!
//! The counts of SiRad and mmWave were made with the judgements of tests/expected/judge_cases.py, those of types that come again
//! by hand, those of vital signs by trying which records fill a packet; none knows anything of this reader. The library is
//! judged too if `VQ_LIB_DIR` names the directory that holds the archive.

use radar_reference::abi::{Reference, Subject, BAD, WHOLE};
use radar_reference::compare::check_judgement;
use radar_reference::judgement::{MMWAVE, SIRAD, VITAL_SIGNS};
use radar_reference::packet_rules::MAGIC;

/// How judgements fell: whole, bad, waiting.
type Counts = [u64; 3];

/// The reader itself, and the library.
fn subjects() -> Vec<Box<dyn Subject>> {
    #[allow(unused_mut)]
    let mut subjects: Vec<Box<dyn Subject>> = vec![Box::new(Reference)];
    #[cfg(gateway_linked)]
    subjects.push(Box::new(radar_reference::gateway::Gateway));
    subjects
}

struct Grid {
    dialect: u32,
    subjects: Vec<Box<dyn Subject>>,
    counts: Counts,
}

impl Grid {
    fn of(dialect: u32) -> Grid {
        Grid { dialect, subjects: subjects(), counts: [0; 3] }
    }

    fn judge(&mut self, bytes: &[u8]) {
        for subject in &self.subjects {
            let answer = check_judgement(subject.as_ref(), self.dialect, bytes, 0);
            let answer = answer.unwrap_or_else(|what| panic!("{what}: {bytes:02x?}"));
            let index = match answer.state {
                WHOLE => 0,
                BAD => 1,
                _ => 2,
            };
            self.counts[index] += 1;
        }
    }

    /// Every subject gave these answers.
    fn assert(&self, name: &str, expected: Counts) {
        assert_eq!(self.counts, expected.map(|count| count * self.subjects.len() as u64), "{name}");
    }
}

// SiRad

/// A frame with this front, this byte as all its others; then the counts of its cuts and of its damages.
const FRAMES: [(&str, u8, usize, usize, Counts, Counts); 9] = [
    ("!R0000", b'0', 16, 1, [1, 0, 16], [1778, 2318, 0]),
    ("!P0001", b'0', 17, 1, [1, 0, 17], [1999, 2353, 0]),
    ("!C00FF", b'0', 271, 1, [1, 0, 271], [58133, 11243, 0]),
    ("!T5Z00", b'0', 230, 1, [1, 0, 230], [20225, 38655, 0]),
    ("!T5Z", 0, 230, 1, [1, 0, 230], [465, 58415, 0]),
    ("!T5Z10200Z80000000", 0, 230, 1, [1, 0, 230], [1700, 57180, 0]),
    ("!U5Z00", b'0', 26, 1, [1, 0, 26], [561, 6095, 0]),
    ("!E0001", b'0', 8, 1, [1, 0, 8], [68, 1980, 0]),
    ("!PFFFF", b'0', 65551, 13103, [1, 0, 6], [1106, 430, 0]),
];

fn frame(front: &str, other: u8, length: usize) -> Vec<u8> {
    let mut frame = front.as_bytes().to_vec();
    frame.resize(length - 2, other);
    frame.extend_from_slice(b"\r\n");
    frame
}

#[test]
fn frames_cut_anywhere() {
    for (front, other, length, step, expected, _) in FRAMES {
        let frame = frame(front, other, length);
        let mut grid = Grid::of(SIRAD);
        for end in (0..length).step_by(step).chain([length]) {
            grid.judge(&frame[..end]);
        }
        grid.assert(front, expected);
    }
}

#[test]
fn frames_with_every_value_of_every_byte() {
    for (front, other, length, step, _, expected) in FRAMES {
        let mut frame = frame(front, other, length);
        let mut grid = Grid::of(SIRAD);
        for place in (0..length).step_by(step) {
            let right = frame[place];
            for value in 0..=255 {
                frame[place] = value;
                grid.judge(&frame);
            }
            frame[place] = right;
        }
        grid.assert(front, expected);
    }
}

/// Every value of every byte of a T frame of `0` or of value 0, judged up to this byte: 12 or 13 by the byte's field, 17 in a
/// block whose first byte is 0.
#[test]
fn blocks_up_to_every_value_of_every_byte() {
    for (other, expected) in [(b'0', [0, 37_344, 20_000]), (0, [0, 56_864, 480])] {
        let mut frame = frame("!T5Z", other, 230);
        let mut grid = Grid::of(SIRAD);
        for place in 4..228 {
            let within = (place - 4) % 14;
            let (field, digits) = (b"xxxxxcxxxxcccc"[within], b"0123456789ABCDEF");
            for value in 0..=255 {
                frame[place] = value;
                grid.judge(&frame[..=place]);
                let reason = match within {
                    0 if value == 0 => 0,
                    1.. if other == 0 => 17 * u32::from(value != 0),
                    _ if field == b'x' => 12 * u32::from(!digits.contains(&value)),
                    _ => 13 * u32::from(!(34..=254).contains(&value)),
                };
                assert_eq!(Reference.judge(SIRAD, &frame[..=place], 0).reason, reason, "{place} {value}");
            }
            frame[place] = other;
        }
        grid.assert("blocks", expected);
    }
}

// mmWave

/// Bytes that no field sets: payloads and padding.
fn filled() -> Vec<u8> {
    (0..33_000).map(|index| (3 + 7 * index) as u8).collect()
}

fn put(bytes: &mut [u8], place: usize, number: u32) {
    if let Some(field) = bytes.get_mut(place..place.saturating_add(4)) {
        field.copy_from_slice(&number.to_le_bytes());
    }
}

fn header(bytes: &mut [u8], place: usize, total: u32, objects: u32, records: u32) {
    bytes[place..place + 8].copy_from_slice(&MAGIC);
    let fields = [0x0305_0004, total, 0x000A_6843, 7, u32::MAX, objects, records, 3];
    for (index, number) in fields.into_iter().enumerate() {
        put(bytes, place + 8 + 4 * index, number);
    }
}

fn record(bytes: &mut [u8], place: usize, kind: u32, length: u32) {
    put(bytes, place, kind);
    put(bytes, place.saturating_add(4), length);
}

/// Free records without payloads, but for the last; the packet whole and without its last byte.
fn judge_records(grid: &mut Grid, bytes: &mut [u8], total: u32, records: u32, last: u32) {
    header(bytes, 0, total, 0, records);
    for index in 0..records as usize {
        record(bytes, 40 + 8 * index, 10, 0);
    }
    put(bytes, 36 + 8 * records as usize, last);
    grid.judge(&bytes[..total as usize]);
    grid.judge(&bytes[..total as usize - 1]);
}

/// No record, one, the most, one more than that, 33; no padding, the most, one byte too much, a payload too long.
#[test]
fn every_total_length_at_its_limits() {
    let mut grid = Grid::of(MMWAVE);
    let mut bytes = filled();
    for total in (64..=32_768u32).step_by(32) {
        let most = ((total - 40) / 8).min(32);
        for records in [0, 1, most, most + 1, 33] {
            let room = total.wrapping_sub(40 + 8 * records);
            for last in [room, room.wrapping_sub(31), room.wrapping_sub(32), room.wrapping_add(1)] {
                judge_records(&mut grid, &mut bytes, total, records, last);
            }
        }
    }
    grid.assert("totals", [4086, 24544 + 8180, 4110]);
}

#[test]
fn illegal_total_lengths_with_and_without_their_last_byte() {
    let mut grid = Grid::of(MMWAVE);
    let mut bytes = filled();
    for total in [0, 32, 63, 65, 80, 100, 32_767, 32_769, 32_800, 65_536, 1 << 31, u32::MAX - 31] {
        header(&mut bytes, 0, total, 0, 0);
        grid.judge(&bytes[..15]);
        grid.judge(&bytes[..16]);
    }
    grid.assert("illegal totals", [0, 12, 12]);
}

#[test]
fn thirty_two_records_without_payloads() {
    let mut grid = Grid::of(MMWAVE);
    for total in [288, 320, 352] {
        judge_records(&mut grid, &mut filled(), total, 32, 0);
    }
    grid.assert("empty records", [1, 4, 1]);
}

/// One record of the type; a second one is free and fills the rest.
fn judge_single(grid: &mut Grid, bytes: &mut [u8], total: u32, objects: u32, records: u32, kind: u32, length: u32) {
    header(bytes, 0, total, objects, records);
    record(bytes, 48 + length as usize, 10, total.wrapping_sub(56).wrapping_sub(length));
    record(bytes, 40, kind, length);
    grid.judge(&bytes[..total as usize]);
}

/// 16 and 4 times some of the object counts pass 32 bits.
#[test]
fn records_by_object_count() {
    let mut grid = Grid::of(MMWAVE);
    let mut bytes = filled();
    for objects in [0, 1, 2, 3, 1 << 28, (1 << 28) + 1, 1 << 30, u32::MAX] {
        for total in [64, 96, 128, 32_768] {
            for (kind, records) in [(1, 1), (1, 2), (7, 1), (7, 2)] {
                for length in [0, 4, 16, 17, objects.wrapping_mul(4), objects.wrapping_mul(16)] {
                    judge_single(&mut grid, &mut bytes, total, objects, records, kind, length);
                }
            }
        }
    }
    grid.assert("objects", [34, 618 + 116, 0]);
}

#[test]
fn all_types_with_payloads_up_to_80_bytes() {
    let mut grid = Grid::of(MMWAVE);
    let mut bytes = filled();
    for length in 0..81 {
        for kind in (0..12).chain([255, 65_542, u32::MAX]) {
            for total in [64, 96, 128] {
                for (objects, records) in [(0, 1), (1, 1), (2, 1), (2, 2)] {
                    judge_single(&mut grid, &mut bytes, total, objects, records, kind, length);
                }
            }
        }
    }
    grid.assert("types", [2965, 2349 + 9266, 0]);
}

/// Records of two types from 0 to 11, with a free one between them or without, judged whole and up to the third and the fourth
/// byte of the second type. Of the 144 pairs 9 are of a known type twice, and 2 are 4 and 8.
#[test]
fn all_pairs_of_types() {
    let mut grid = Grid::of(MMWAVE);
    let mut bytes = filled();
    let length = |kind| [5, 32, 2, 4, 8, 6, 24, 8, 12, 28].get(kind as usize).copied().unwrap_or(3);
    for (first, second, between) in (0..288u32).map(|number| (number / 24, number / 2 % 12, number % 2)) {
        let kinds = [&[first][..], &vec![10; between as usize], &[second]].concat();
        let end = 40 + kinds.iter().map(|&kind| 8 + length(kind)).sum::<u32>();
        header(&mut bytes, 0, end.next_multiple_of(32), 2, kinds.len() as u32);
        let mut place = 40;
        for kind in kinds {
            record(&mut bytes, place, kind, length(kind));
            place += 8 + length(kind) as usize;
        }
        let second_at = (end - 8 - length(second)) as usize;
        grid.judge(&bytes[..end.next_multiple_of(32) as usize]);
        grid.judge(&bytes[..second_at + 3]);
        grid.judge(&bytes[..second_at + 4]);
        let refused = first == second && (1..=9).contains(&first) || [first.min(second), first.max(second)] == [4, 8];
        assert_eq!(Reference.judge(MMWAVE, &bytes[..second_at + 4], 0).reason, 25 * u32::from(refused));
    }
    grid.assert("pairs", [2 * 133, 2 * 11 + 2 * 11, 2 * 144 + 2 * 133]);
}

/// Type 5 at any two of 32 places, or 4 at one and 8 at another, and free types at all others.
#[test]
fn types_that_come_again_at_all_places() {
    let mut grid = Grid::of(MMWAVE);
    let mut bytes = filled();
    header(&mut bytes, 0, 320, 0, 32);
    for (first, second, kinds) in
        (0..1024).flat_map(|number| [[5, 5], [4, 8]].map(|kinds| (number / 32, number % 32, kinds)))
    {
        (0..32).for_each(|index| record(&mut bytes, 40 + 8 * index, 10, 0));
        put(&mut bytes, 40 + 8 * first, kinds[0]);
        put(&mut bytes, 40 + 8 * second, kinds[1]);
        grid.judge(&bytes[..320]);
    }
    // At one place stands the second alone.
    grid.assert("places", [2 * 32, 2 * 32 * 31, 0]);
}

/// The first bytes of a header, then a packet: judged at both places.
#[test]
fn false_starts_in_front_of_a_packet() {
    let mut grid = Grid::of(MMWAVE);
    let mut bytes = filled();
    for place in 0..41 {
        header(&mut bytes, 0, 64, 0, 0);
        header(&mut bytes, place, 64, 0, 0);
        grid.judge(&bytes[..64 + place]);
        grid.judge(&bytes[place..place + 64]);
    }
    grid.assert("false starts", [47, 7 + 8 + 20, 0]);
}

/// A packet of 160 bytes with three records: points, statistics and a free one; a byte stands behind it.
fn three_records() -> Vec<u8> {
    let mut bytes = filled();
    header(&mut bytes, 0, 160, 2, 3);
    record(&mut bytes, 40, 1, 32);
    record(&mut bytes, 80, 6, 24);
    record(&mut bytes, 112, 10, 10);
    bytes.truncate(161);
    bytes
}

#[test]
fn a_packet_cut_anywhere() {
    let bytes = three_records();
    let mut grid = Grid::of(MMWAVE);
    for end in 0..=bytes.len() {
        grid.judge(&bytes[..end]);
    }
    grid.assert("cut", [2, 0, 160]);
}

/// Judged whole, and up to the byte that is damaged.
#[test]
fn a_packet_with_every_value_of_every_byte() {
    let mut bytes = three_records();
    for (by, expected) in [(1, [129, 45, 146]), (128, [129, 45, 146])] {
        let mut grid = Grid::of(MMWAVE);
        judge_damages(&mut grid, &mut bytes, 160, by);
        grid.assert("damaged", expected);
    }
    for by in 0..=255 {
        judge_damages(&mut Grid::of(MMWAVE), &mut bytes, 160, by);
    }
}

fn judge_damages(grid: &mut Grid, bytes: &mut [u8], total: usize, by: u8) {
    for place in 0..total {
        let right = bytes[place];
        bytes[place] = right.wrapping_add(by);
        grid.judge(&bytes[..total]);
        grid.judge(&bytes[..=place]);
        bytes[place] = right;
    }
}

// Vital signs

/// A header of a vital-signs packet at the front.
fn vital_signs_header(bytes: &mut [u8], total: u32, records: u32) {
    header(bytes, 0, total, 99, records);
    put(bytes, 36, 0);
}

#[test]
fn all_record_counts_with_total_lengths_near_the_limits() {
    let mut grid = Grid::of(VITAL_SIGNS);
    let mut bytes = filled();
    for total in (0..=400).chain(32_600..=33_000) {
        for records in 0..=34 {
            vital_signs_header(&mut bytes, total, records);
            grid.judge(&bytes[..40]);
        }
    }
    grid.assert("counts", [1, 23_415 + 1422, 3232]);
}

/// No record, one, two, the most, one more than that, 33, all of type 2 and empty but for the last: it fills the packet, or
/// ends four bytes too early or too late, or is odd by two. The packet is judged whole and without its last byte.
#[test]
fn every_total_length_of_vital_signs_at_its_limits() {
    let mut grid = Grid::of(VITAL_SIGNS);
    let mut bytes = filled();
    for total in (48..=32_768u32).step_by(4) {
        let most = ((total - 40) / 8).min(32);
        for records in [0, 1, 2, most, most + 1, 33] {
            let room = total.wrapping_sub(40 + 8 * records);
            for last in [room, room.wrapping_sub(4), room.wrapping_add(4), room.wrapping_add(2)] {
                vital_signs_header(&mut bytes, total, records);
                for index in 0..records as usize {
                    record(&mut bytes, 40 + 8 * index, 2, 0);
                }
                if records > 0 {
                    put(&mut bytes, 36 + 8 * records as usize, last);
                }
                grid.judge(&bytes[..total as usize]);
                grid.judge(&bytes[..total as usize - 1]);
            }
        }
    }
    grid.assert("totals", [24_541, 196_360 + 147_144, 24_643]);
}

#[test]
fn the_fixed_fields_with_all_bytes() {
    let mut grid = Grid::of(VITAL_SIGNS);
    let mut bytes = filled();
    for (total, records) in [(40, 0), (48, 1), (48, 0), (48, 2), (48, 33)] {
        for place in [28, 36] {
            for number in (0..256).flat_map(|byte| [byte, byte << 8, byte << 16, byte << 24, 99 | byte << 8]) {
                vital_signs_header(&mut bytes, total, records);
                put(&mut bytes, place, number);
                grid.judge(&bytes[..40]);
                grid.judge(&bytes[..place + 4]);
                grid.judge(&bytes[..place + 3]);
            }
        }
    }
    grid.assert("fixed fields", [10, 17_884 + 11_526, 8980]);
}

/// One record of the type, or two, of which the second is of type 2 and fills the rest.
#[test]
fn all_types_of_vital_signs_with_payloads_up_to_80_bytes() {
    let mut grid = Grid::of(VITAL_SIGNS);
    let mut bytes = filled();
    for length in 0..81u32 {
        for kind in (0..8).chain([255, 257, 0x0100_0002, u32::MAX]) {
            for total in [48, 52, 56, 64, 68, 72, 76, 80, 96, 128, 132] {
                for records in [1, 2] {
                    vital_signs_header(&mut bytes, total, records);
                    record(&mut bytes, 48 + length as usize, 2, total.wrapping_sub(56).wrapping_sub(length));
                    record(&mut bytes, 40, kind, length);
                    grid.judge(&bytes[..total as usize]);
                    grid.judge(&bytes[..44]);
                    grid.judge(&bytes[..48]);
                }
            }
        }
    }
    grid.assert("types", [126, 5832 + 47_385 + 7042, 3767]);
}

/// A packet of 168 bytes with all four types; a byte stands behind it.
fn four_records() -> Vec<u8> {
    let mut bytes = filled();
    vital_signs_header(&mut bytes, 168, 4);
    record(&mut bytes, 40, 1, 24);
    record(&mut bytes, 72, 2, 20);
    record(&mut bytes, 100, 3, 32);
    record(&mut bytes, 140, 4, 20);
    bytes.truncate(169);
    bytes
}

#[test]
fn a_vital_signs_packet_cut_anywhere() {
    let bytes = four_records();
    let mut grid = Grid::of(VITAL_SIGNS);
    for end in 0..=bytes.len() {
        grid.judge(&bytes[..end]);
    }
    grid.assert("cut", [2, 0, 168]);
}

/// Judged whole, and up to the byte that is damaged.
#[test]
fn a_vital_signs_packet_with_every_value_of_every_byte() {
    let mut bytes = four_records();
    for (by, expected) in [(1, [114, 75, 147]), (128, [113, 76, 147])] {
        let mut grid = Grid::of(VITAL_SIGNS);
        judge_damages(&mut grid, &mut bytes, 168, by);
        grid.assert("damaged", expected);
    }
    for by in 0..=255 {
        judge_damages(&mut Grid::of(VITAL_SIGNS), &mut bytes, 168, by);
    }
}

/// The first bytes of a header, then a packet: judged at both places, as either packet dialect.
#[test]
fn false_starts_in_front_of_a_packet_of_both_dialects() {
    for dialect in [MMWAVE, VITAL_SIGNS] {
        let mut grid = Grid::of(dialect);
        let mut bytes = filled();
        for place in 0..41 {
            header(&mut bytes, 0, 64, 99, 1);
            header(&mut bytes, place, 64, 99, 1);
            put(&mut bytes, place + 36, 0);
            record(&mut bytes, place + 40, 2, 16);
            grid.judge(&bytes[..64 + place]);
            grid.judge(&bytes[place..place + 64]);
        }
        grid.assert("false starts", [42, 40, 0]);
    }
}
