//! Captures, floats and commands from a seed: clean, noisy, cut, one byte damaged, hostile.
//!
//! The same seed gives the same bytes on every machine, so a found difference is told by its seed. The frames are built
//! here from the papers' tables, apart from the reader and the field writers.

pub mod demorad;
pub mod doorway;
pub mod floats;
pub mod mmwave;
mod packets;
pub mod random;
pub mod sirad;
pub mod vital_signs;

use crate::judgement::{MMWAVE, SIRAD, VITAL_SIGNS};
use random::Random;

/// How a capture is made.
#[derive(Clone, Copy, Debug, PartialEq, Eq)]
pub enum Family {
    /// Whole frames back to back, SiRad with a space now and then.
    Clean,
    /// Whole frames with noise between them.
    Noisy,
    /// A clean or noisy capture that begins and ends anywhere.
    Cut,
    /// A clean or noisy capture with one byte changed.
    Damaged,
    /// False starts and magics, nested frames, sizes and counts at their limits, true frames among them.
    Hostile,
}

impl Family {
    /// All families.
    pub const ALL: [Family; 5] = [Family::Clean, Family::Noisy, Family::Cut, Family::Damaged, Family::Hostile];

    /// The family of this name.
    pub fn named(name: &str) -> Option<Family> {
        Family::ALL.into_iter().find(|family| family.name() == name)
    }

    /// The family's name.
    pub fn name(self) -> &'static str {
        match self {
            Family::Clean => "clean",
            Family::Noisy => "noisy",
            Family::Cut => "cut",
            Family::Damaged => "damaged",
            Family::Hostile => "hostile",
        }
    }
}

/// The dialects' names in commands and file names, each at its number.
pub const DIALECT_NAMES: [&str; 3] = ["sirad", "mmwave", "vital-signs"];

/// The dialect of this name.
pub fn dialect_named(name: &str) -> Option<u32> {
    (0..).zip(DIALECT_NAMES).find(|&(_, known)| known == name).map(|(dialect, _)| dialect)
}

/// A capture of at most `length` bytes, close to them where frames allow it.
pub fn capture(dialect: u32, family: Family, seed: u64, length: usize) -> Vec<u8> {
    let mut random = Random::new(seed);
    let random = &mut random;
    let mut bytes = match family {
        Family::Clean => clean(random, dialect, length),
        Family::Noisy => noisy(random, dialect, length),
        Family::Hostile => hostile(random, dialect, length),
        Family::Cut => {
            let bytes = clean_or_noisy(random, dialect, length);
            let first = random.below(bytes.len() / 2 + 1);
            let last = random.within(first, bytes.len());
            bytes[first..last].to_vec()
        }
        Family::Damaged => {
            let mut bytes = clean_or_noisy(random, dialect, length);
            damage(random, &mut bytes);
            bytes
        }
    };
    bytes.truncate(length);
    bytes
}

fn clean_or_noisy(random: &mut Random, dialect: u32, length: usize) -> Vec<u8> {
    if random.once_in(2) {
        clean(random, dialect, length)
    } else {
        noisy(random, dialect, length)
    }
}

fn clean(random: &mut Random, dialect: u32, length: usize) -> Vec<u8> {
    let mut bytes = Vec::new();
    while let Some(frame) = frame_within(random, dialect, length - bytes.len()) {
        bytes.extend(frame);
        if dialect == SIRAD && bytes.len() < length && random.once_in(5) {
            bytes.push(b' ');
        }
    }
    bytes
}

fn noisy(random: &mut Random, dialect: u32, length: usize) -> Vec<u8> {
    let mut bytes = noise(random, dialect);
    bytes.truncate(length);
    while let Some(frame) = frame_within(random, dialect, length - bytes.len()) {
        bytes.extend(frame);
        bytes.extend(noise(random, dialect));
        bytes.truncate(length);
    }
    bytes
}

fn hostile(random: &mut Random, dialect: u32, length: usize) -> Vec<u8> {
    let mut bytes = Vec::new();
    while bytes.len() < length {
        let room = length - bytes.len();
        bytes.extend(hostile_piece(random, dialect, room));
    }
    bytes
}

fn hostile_piece(random: &mut Random, dialect: u32, room: usize) -> Vec<u8> {
    match dialect {
        SIRAD => sirad::hostile(random, room),
        MMWAVE => mmwave::hostile(random, room),
        _ => vital_signs::hostile(random, room),
    }
}

fn frame_within(random: &mut Random, dialect: u32, room: usize) -> Option<Vec<u8>> {
    match dialect {
        SIRAD => sirad::frame(random, room),
        MMWAVE => mmwave::packet(random, room),
        _ => vital_signs::packet(random, room),
    }
}

/// What a field reader is lent in place of this frame: mostly the frame, or it with one byte changed, cut, with bytes behind
/// it, or a hostile piece.
pub fn lent(random: &mut Random, dialect: u32, mut frame: Vec<u8>) -> Vec<u8> {
    match random.below(10) {
        0 | 1 => damage(random, &mut frame),
        2 => {
            let first = if random.once_in(2) { 0 } else { random.below(frame.len()) };
            let last = random.within(first, frame.len() - 1);
            frame = frame[first..last].to_vec();
        }
        3 => {
            let count = random.within(1, 3);
            frame.extend((0..count).map(|_| random.pick(b"\x00 !\r\n\x02")));
        }
        4 => frame = hostile_piece(random, dialect, 400),
        _ => (),
    }
    frame
}

/// Puts another value in one byte, often a close one.
fn damage(random: &mut Random, bytes: &mut [u8]) {
    if bytes.is_empty() {
        return;
    }
    let place = random.below(bytes.len());
    let byte = &mut bytes[place];
    *byte = match random.below(4) {
        0 => byte.wrapping_add(1),
        1 => byte.wrapping_sub(1),
        2 => *byte ^ 1 << random.below(8),
        _ => byte.wrapping_add(random.within(1, 255) as u8),
    };
}

/// A few bytes that are not meant to be frames.
fn noise(random: &mut Random, dialect: u32) -> Vec<u8> {
    let count = random.pick(&[0, 1, 1, 2, 3, 5, 8, 13, 21, 40]);
    let near: &[u8] =
        if dialect == SIRAD { b"!!  RPCTUE09AFaf\"\r\n\xfe\xff" } else { &[2, 1, 4, 3, 6, 5, 8, 7, 2, 0] };
    let any = random.once_in(2);
    (0..count).map(|_| if any { random.byte() } else { random.pick(near) }).collect()
}

/// The 25 bytes of paper 01's "The listing".
pub const LISTING_EXAMPLE: &[u8; 25] = b"!E0000\r\n !E00G0\r\n!E0001\r\n";

/// So many packets of up to six points each with noise between them. Coordinates are whole or half millimetres within a
/// passage of 12 by 12 by 4 metres; the first packet's first point is at the 0.0625 m of the demands.
pub fn points(seed: u64, packets: usize) -> Vec<u8> {
    let mut random = Random::new(seed);
    let mut bytes = Vec::new();
    for index in 0..packets {
        bytes.extend(noise(&mut random, MMWAVE));
        let count = random.below(7);
        let mut points: Vec<[f32; 4]> = (0..count).map(|_| point(&mut random)).collect();
        if index == 0 {
            points.insert(0, [0.0625, -0.0625, 1.5, 0.0]);
        }
        bytes.extend(mmwave::packet_of_points(&mut random, &points));
    }
    bytes
}

/// So many packets as a vital-signs monitor sends them, with noise between them. Every third is damaged, and in front of
/// every fourth stands the start of one that breaks off.
pub fn monitor(seed: u64, packets: u32) -> Vec<u8> {
    let mut random = Random::new(seed);
    let mut bytes = Vec::new();
    for index in 0..packets {
        bytes.extend(noise(&mut random, VITAL_SIGNS));
        let mut packet = vital_signs::monitor_packet(&mut random, index);
        if index % 3 == 2 {
            // The fixed fields and the record count: any change there makes the packet bad.
            damage(&mut random, &mut packet[28..40]);
        }
        if index % 4 == 3 {
            bytes.extend_from_slice(&packet[..random.within(12, 39)]);
        }
        bytes.extend(packet);
    }
    bytes
}

/// So many T frames of two targets and fourteen empty blocks, which are of `0` and of value 0 by turns, with noise between
/// them. In every sixth a `0` stands in a block of value 0.
pub fn targets(seed: u64, frames: usize) -> Vec<u8> {
    let mut random = Random::new(seed);
    let mut bytes = Vec::new();
    for index in 0..frames {
        bytes.extend(noise(&mut random, SIRAD));
        let mut frame = sirad::two_targets(&mut random, index);
        if index % 6 == 5 {
            // Behind the first byte of any block but the targets.
            frame[4 + 14 * random.within(2, 15) + random.within(1, 13)] = b'0';
        }
        bytes.extend(frame);
    }
    bytes
}

fn point(random: &mut Random) -> [f32; 4] {
    let mut metres = |half_millimetres: usize| random.below(half_millimetres) as f32 / 2000.0;
    let (x, y, z, doppler) = (metres(24_000) - 6.0, metres(24_000), metres(8_000) - 2.0, metres(8_000) - 2.0);
    [x, y, z, doppler]
}

#[cfg(test)]
mod tests {
    use super::*;
    use crate::judgement::{judge, Judgement, DIALECTS};
    use crate::reading::{closed_reading, Reading, ROW};

    fn rows(dialect: u32, bytes: &[u8]) -> (Reading, Vec<u32>) {
        let mut table = vec![0; ROW * (bytes.len() / 8 + 1)];
        let reading = closed_reading(dialect, bytes, &mut table).unwrap();
        table.truncate(ROW * reading.rows);
        (reading, table)
    }

    #[test]
    fn a_seed_fixes_the_bytes() {
        for dialect in DIALECTS {
            for family in Family::ALL {
                let first = capture(dialect, family, 42, 2000);
                assert_eq!(first, capture(dialect, family, 42, 2000));
                assert_ne!(first, capture(dialect, family, 43, 2000));
                assert!(first.len() <= 2000);
                assert_eq!(Family::named(family.name()), Some(family));
                assert_eq!(dialect_named(DIALECT_NAMES[dialect as usize]), Some(dialect));
            }
        }
    }

    #[test]
    fn clean_captures_are_frames_back_to_back() {
        for seed in 0..300 {
            let bytes = capture(SIRAD, Family::Clean, seed, 700);
            let (reading, _) = rows(SIRAD, &bytes);
            assert_eq!(reading.skipped, bytes.iter().filter(|&&byte| byte == b' ').count());
            for dialect in [MMWAVE, VITAL_SIGNS] {
                let bytes = capture(dialect, Family::Clean, seed, 3000);
                let (reading, _) = rows(dialect, &bytes);
                assert_eq!(reading.skipped, 0, "seed {seed}");
                assert!(reading.rows > 0);
            }
        }
    }

    #[test]
    fn frames_of_each_kind_and_packets_of_each_type_are_made() {
        let mut random = Random::new(5);
        let mut kinds = [0; 7];
        for _ in 0..500 {
            let frame = sirad::frame(&mut random, 400).unwrap();
            let Ok(Judgement::Whole { kind, length }) = judge(SIRAD, &frame, 0) else { panic!("{frame:?}") };
            assert_eq!(length, frame.len());
            kinds[kind as usize] += 1;
        }
        assert!(kinds[1..].iter().all(|&count| count > 10), "{kinds:?}");
        let mut types = [0; 11];
        for _ in 0..500 {
            let bytes = mmwave::packet(&mut random, 1024).unwrap();
            let expected = Judgement::Whole { kind: 16, length: bytes.len() };
            assert_eq!(judge(MMWAVE, &bytes, 0), Ok(expected));
            for index in 0.. {
                let Ok(record) = crate::packet::record(16, &bytes, index) else { break };
                types[record.record_type.min(10) as usize] += 1;
            }
        }
        assert!(types.iter().all(|&count| count > 10), "{types:?}");
    }

    #[test]
    fn free_types_come_again_in_whole_packets_and_known_ones_in_bad_ones() {
        let mut random = Random::new(5);
        let mut again = 0;
        for _ in 0..500 {
            let bytes = mmwave::packet(&mut random, 1024).unwrap();
            let types = (0..).map_while(|index| crate::packet::record(16, &bytes, index).ok());
            let types: Vec<u32> = types.map(|record| record.record_type).collect();
            again += i32::from((0..types.len()).any(|index| types[..index].contains(&types[index])));
        }
        assert!(again > 50, "{again}");
        let hostile = capture(MMWAVE, Family::Hostile, 1, 100_000);
        let judgements = (0..hostile.len()).map(|place| judge(MMWAVE, &hostile, place));
        let repeated = judgements.filter(|&judgement| judgement == Ok(Judgement::Bad { reason: 25 })).count();
        assert!(repeated > 30, "{repeated}");
    }

    #[test]
    fn empty_blocks_of_both_forms_are_made_and_broken() {
        let mut random = Random::new(8);
        let (mut targets, mut of_0, mut of_value_0, mut frames_of_value_0) = (0, 0, 0, 0);
        for _ in 0..500 {
            let frame = sirad::frame_of(&mut random, b'T', 230);
            assert_eq!(judge(SIRAD, &frame, 0), Ok(Judgement::Whole { kind: 4, length: 230 }));
            let forms = frame[4..228].chunks(14).map(|block| (block[0] == 0, block[..10] == [b'0'; 10]));
            targets += forms.clone().filter(|&form| form == (false, false)).count();
            of_0 += forms.clone().filter(|form| form.1).count();
            of_value_0 += forms.filter(|form| form.0).count();
            frames_of_value_0 += usize::from(frame[4..228] == [0; 224]);
        }
        assert!(targets > 1000 && of_0 > 1000 && of_value_0 > 1000, "{targets} {of_0} {of_value_0}");
        assert!(frames_of_value_0 > 10, "{frames_of_value_0}");
        let hostile = capture(SIRAD, Family::Hostile, 1, 100_000);
        let reasons = (0..hostile.len()).map(|place| judge(SIRAD, &hostile, place));
        let broken = reasons.filter(|&judgement| judgement == Ok(Judgement::Bad { reason: 17 })).count();
        assert!(broken > 20, "{broken}");
    }

    #[test]
    fn damage_changes_one_byte() {
        for seed in 0..200 {
            let mut random = Random::new(seed);
            let before = sirad::frame(&mut random, 100).unwrap();
            let mut after = before.clone();
            damage(&mut random, &mut after);
            assert_eq!(before.iter().zip(&after).filter(|(old, new)| old != new).count(), 1);
        }
    }

    #[test]
    fn points_are_where_they_were_put() {
        let mut random = Random::new(1);
        let bytes = mmwave::packet_of_points(&mut random, &[[0.0625, -0.0625, 2.5, 0.25], [1000.0, 0.1, -0.0, 0.0]]);
        let first = crate::packet::point(1, &bytes, 0).unwrap();
        assert_eq!((first.x, first.y, first.z, first.doppler), (63, -63, 2500, 0.25f32.to_bits()));
        let second = crate::packet::point(1, &bytes, 1).unwrap();
        assert_eq!((second.x, second.y, second.z), (1_000_000, 100, 0));
        assert_eq!(crate::packet::point(1, &mmwave::packet_of_points(&mut random, &[]), 0), Err(7));
    }

    #[test]
    fn vital_signs_packets_of_each_type_and_of_both_dialects_are_made() {
        let mut random = Random::new(6);
        let (mut types, mut both, mut empty) = ([0; 5], 0, 0);
        for _ in 0..1000 {
            let bytes = vital_signs::packet(&mut random, 1024).unwrap();
            let length = bytes.len();
            assert_eq!(judge(VITAL_SIGNS, &bytes, 0), Ok(Judgement::Whole { kind: 17, length }));
            both += i32::from(judge(MMWAVE, &bytes, 0) == Ok(Judgement::Whole { kind: 16, length }));
            empty += i32::from(length == 40);
            for index in 0.. {
                let Ok(record) = crate::packet::record(17, &bytes, index) else { break };
                types[record.record_type as usize] += 1;
            }
        }
        assert!(types[1..].iter().all(|&count| count > 100), "{types:?}");
        assert!(both > 50 && empty > 10, "{both} {empty}");
        for room in [64, 96, 200, 1024] {
            for _ in 0..100 {
                let bytes = vital_signs::of_both(&mut random, room);
                let length = bytes.len();
                assert!(length <= room);
                assert_eq!(judge(VITAL_SIGNS, &bytes, 0), Ok(Judgement::Whole { kind: 17, length }));
                assert_eq!(judge(MMWAVE, &bytes, 0), Ok(Judgement::Whole { kind: 16, length }));
            }
        }
    }

    #[test]
    fn a_monitor_sends_all_four_types() {
        let mut random = Random::new(7);
        let mut types = [0; 5];
        for number in 0..40 {
            let bytes = vital_signs::monitor_packet(&mut random, number);
            assert_eq!(judge(VITAL_SIGNS, &bytes, 0), Ok(Judgement::Whole { kind: 17, length: bytes.len() }));
            assert_eq!(crate::packet::header(17, &bytes).map(|header| header.frame_number), Ok(number));
            for index in 0.. {
                let Ok(record) = crate::packet::record(17, &bytes, index) else { break };
                types[record.record_type as usize] += 1;
            }
        }
        assert!(types[1..].iter().all(|&count| count > 5), "{types:?}");
    }
}
