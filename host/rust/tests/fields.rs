//! The library's readers and writers of fields and commands against the reader, and the comparison against readers that are
//! wrong on purpose.
//!
//! The library is compared if `VQ_LIB_DIR` names the directory that holds `libvellanquor.a`. `VQ_SEED` gives another first
//! seed than the usual one.

mod editions;
mod tags;

use editions::{is_wrong, Renaming, OTHER_EDITIONS};
use radar_reference::abi::fields::{
    Command, DataFrame, ErrorFrame, FieldSubject, Header, Point, Record, StatusFrame, Step, Target, TargetFrame,
    Written,
};
use radar_reference::abi::Reference;
use radar_reference::compare::fields::{
    check_throughout, compare_commands, compare_frames, compare_packets, compare_written_commands,
    compare_written_frames,
};
use radar_reference::compare::{first_seed, Difference, Tally};
use radar_reference::generate::mmwave::{packet_of, packet_of_points};
use radar_reference::generate::random::Random;
use radar_reference::mmwave::is_excluded;
use radar_reference::numbers::EDITIONS;
use tags::{repeated, tags};

/// A comparison from a first seed on, over so many frames, packets or commands.
type Comparison = fn(&dyn FieldSubject, u64, u64) -> Result<Tally, Difference>;

/// A comparison, how far it goes, and the answers that must come so often at least.
struct Run {
    compare: Comparison,
    count: u64,
    seen: &'static [(&'static str, u64)],
}

/// 20,000 slices for each of six kinds.
const FRAMES: Run = Run {
    compare: compare_frames,
    count: 6 * 20_000,
    seen: &[
        ("read_data, kind 1", 10_000),
        ("read_data, kind 2", 10_000),
        ("read_data, kind 3", 10_000),
        ("read_data, refused 5", 30_000),
        ("read_targets", 10_000),
        ("read_targets, an empty block of `0`", 20_000),
        ("read_targets, an empty block of value 0", 20_000),
        ("read_targets, refused 5", 100_000),
        ("write_targets again", 10_000),
        ("read_status", 10_000),
        ("read_status, refused 5", 100_000),
        ("read_status, refused 32", 10_000),
        ("read_status, the editions differ", 3700),
        ("read_error", 10_000),
        ("read_error, refused 5", 100_000),
    ],
};

/// Packets of both dialects by turns, each asked of both kinds and of one other.
const PACKETS: Run = Run {
    compare: compare_packets,
    count: 40_000,
    seen: &[
        ("header of kind 16", 10_000),
        ("header of kind 16, refused 5", 5000),
        ("header of kind 17", 10_000),
        ("header of kind 17, refused 5", 5000),
        ("header of kind 0, refused 5", 1000),
        ("header of kind 18, refused 5", 1000),
        ("record of kind 16", 10_000),
        ("record of kind 16, refused 5", 5000),
        ("record of kind 16, refused 6", 10_000),
        ("record of kind 17, type 1", 2000),
        ("record of kind 17, type 2", 2000),
        ("record of kind 17, type 3", 2000),
        ("record of kind 17, type 4", 2000),
        ("record of kind 17, refused 5", 5000),
        ("record of kind 17, refused 6", 10_000),
        ("record of kind 18, refused 5", 1000),
        ("step of kind 16", 10_000),
        ("step of kind 16, refused 5", 5000),
        ("step of kind 16, refused 6", 10_000),
        ("step of kind 17", 10_000),
        ("step of kind 17, refused 5", 5000),
        ("step of kind 17, refused 6", 10_000),
        ("step of kind 18, refused 5", 1000),
        ("point", 1000),
        ("point, refused 5", 5000),
        ("point, refused 6", 5000),
        ("point, refused 7", 5000),
        ("point, refused 30", 500),
        ("point, refused 31", 500),
        ("point, refused 32", 5000),
        ("point, the editions differ", 1000),
    ],
};

const COMMANDS: Run = Run {
    compare: compare_commands,
    count: 60_000,
    seen: &[
        ("read_command, code 6005", 2000),
        ("read_command, code 6006", 2000),
        ("read_command, code 6007", 2000),
        ("read_command, code 6008", 2000),
        ("read_command, code 7003", 2000),
        ("read_command, code 900E", 2000),
        ("read_command, code 9017", 2000),
        ("read_command, refused 40", 1000),
        ("read_command, refused 41", 1000),
        ("read_command, refused 42", 1000),
        ("read_command, refused 43", 1000),
        ("read_command, refused 44", 1000),
        ("read_command, refused 45", 1000),
        ("read_command, refused 46", 1000),
    ],
};

const WRITTEN_COMMANDS: Run = Run {
    compare: compare_written_commands,
    count: 60_000,
    seen: &[
        ("write_command", 10_000),
        ("write_command, refused 44", 1000),
        ("write_command, refused 45", 1000),
        ("write_command, refused 46", 1000),
        ("write_command, refused 50", 1000),
        ("write_command, refused 51", 1000),
    ],
};

/// 20,000 frames for each of four writers.
const WRITTEN_FRAMES: Run = Run {
    compare: compare_written_frames,
    count: 4 * 20_000,
    seen: &[
        ("write_data", 5000),
        ("write_data, refused 50", 1000),
        ("write_data, refused 51", 1000),
        ("write_data, refused 52", 20),
        ("write_data, refused 53", 1000),
        ("write_targets", 5000),
        ("write_targets, refused 50", 1000),
        ("write_targets, refused 51", 1000),
        ("write_targets, refused 54", 1000),
        ("write_status", 5000),
        ("write_status, refused 50", 1000),
        ("write_status, refused 51", 1000),
        ("write_error", 5000),
        ("write_error, refused 51", 1000),
    ],
};

fn compare(run: &Run, subject: &dyn FieldSubject) -> Result<Tally, Difference> {
    (run.compare)(subject, first_seed(), run.count)
}

/// The subject agrees throughout, and all answers came.
#[cfg(gateway_linked)]
fn assert_agrees(run: &Run, subject: &dyn FieldSubject) {
    let tally = compare(run, subject).unwrap_or_else(|difference| panic!("{difference}"));
    println!("{tally}");
    assert_all_seen(run, &tally);
}

fn assert_all_seen(run: &Run, tally: &Tally) {
    for &(answer, least) in run.seen {
        assert!(tally.of(answer) >= least, "{answer} in {tally}");
    }
}

#[cfg(gateway_linked)]
mod library {
    use super::*;
    use radar_reference::gateway::Gateway;

    #[test]
    fn frames_agree() {
        assert_agrees(&FRAMES, &Gateway);
    }

    #[test]
    fn packets_agree() {
        assert_agrees(&PACKETS, &Gateway);
    }

    #[test]
    fn packets_at_the_edges_agree() {
        for slice in slices() {
            check_throughout(&Gateway, &slice).unwrap_or_else(|difference| panic!("{difference}"));
        }
    }

    #[test]
    fn commands_agree() {
        assert_agrees(&COMMANDS, &Gateway);
    }

    #[test]
    fn written_commands_agree() {
        assert_agrees(&WRITTEN_COMMANDS, &Gateway);
    }

    #[test]
    fn written_frames_agree() {
        assert_agrees(&WRITTEN_FRAMES, &Gateway);
    }
}

/// The packets at the edges, and slices that are none: what the program packet_cases reads, each behind its length; then
/// vital-signs packets, among them the least and one of both dialects, and each without its last byte; then mmWave packets in
/// which a type comes again; then points at halves and beside them, and with coordinates that are refused.
fn slices() -> Vec<Vec<u8>> {
    let file = concat!(env!("CARGO_MANIFEST_DIR"), "/../../crates/packet_cases/stdin");
    let bytes = std::fs::read(file).expect(file);
    let (mut rest, mut slices) = (&bytes[..], Vec::new());
    while let Some((length, behind)) = rest.split_first_chunk() {
        let (slice, behind) = behind.split_at(u32::from_le_bytes(*length) as usize);
        slices.push(slice.to_vec());
        rest = behind;
    }
    for records in [&[][..], &[(1, 24), (2, 40), (3, 32), (4, 20)], &[(2, 16)], &[(4, 20), (2, 0), (3, 0), (2, 12)]] {
        let packet = vital_signs_packet(records);
        slices.push(packet[..packet.len() - 1].to_vec());
        slices.push(packet);
    }
    for types in [&[1, 1][..], &[1, 10, 1], &[4, 1, 8], &[8, 4], &[5, 5], &[10, 1, 10], &[0, 0]] {
        slices.push(packet_of_types(types));
    }
    let halves = (1..400u16).step_by(2).map(|sixteenths| f32::from(sixteenths) / 16.0);
    let beside = |half: f32| [f32::from_bits(half.to_bits() - 1), -half, f32::from_bits(half.to_bits() + 1), half];
    let halves: Vec<[f32; 4]> =
        halves.flat_map(|half| [[half, -half - 1.0, half + 1.0, -half], beside(half)]).collect();
    slices.push(packet_of_points(&mut Random::new(1), &halves));
    let refused = [[f32::INFINITY, 0.0625, 0.0625, 7.0], [0.0625, 1000.5, 0.0, 7.0], [0.0625, 0.0625, f32::NAN, 7.0]];
    slices.push(packet_of_points(&mut Random::new(1), &refused));
    slices
}

/// An mmWave packet of one object with these types, each record with other bytes.
fn packet_of_types(types: &[u32]) -> Vec<u8> {
    let records = (1..).zip(types).map(|(number, &record_type)| (record_type, vec![number; 16]));
    packet_of(&mut Random::new(1), 1, records.collect())
}

/// A vital-signs packet with these types and payload lengths.
fn vital_signs_packet(records: &[(u32, usize)]) -> Vec<u8> {
    let total = 40 + records.iter().map(|(_, length)| 8 + length).sum::<usize>();
    let header = [0x0305_0004, total as u32, 0x000A_1642, 7, 1234, 99, records.len() as u32, 0];
    let mut bytes = vec![2, 1, 4, 3, 6, 5, 8, 7];
    bytes.extend(header.iter().flat_map(|field| field.to_le_bytes()));
    for &(record_type, length) in records {
        bytes.extend(record_type.to_le_bytes());
        bytes.extend((length as u32).to_le_bytes());
        bytes.extend((0..length).map(|index| index as u8));
    }
    bytes
}

fn subjects() -> Vec<&'static dyn FieldSubject> {
    vec![
        &Reference,
        #[cfg(gateway_linked)]
        &radar_reference::gateway::Gateway,
    ]
}

/// The numbers of a vital-signs packet, worked out by hand, of the reader and of the library.
#[test]
fn a_vital_signs_packet_is_read_of_kind_17() {
    for subject in subjects() {
        let packet = vital_signs_packet(&[(1, 24), (2, 8), (3, 16), (4, 20)]);
        assert_eq!(packet.len(), 140);
        let header = Header {
            refusal: 0,
            version: 0x0305_0004,
            total: 140,
            platform: 0x000A_1642,
            frame: 7,
            time: 1234,
            objects: 99,
            records: 4,
            subframe: 0,
        };
        assert_eq!(subject.header(17, &packet), header);
        assert_eq!(subject.record(17, &packet, 0), Record { refusal: 0, tag: 1, start: 48, length: 24 });
        assert_eq!(subject.record(17, &packet, 3), Record { refusal: 0, tag: 4, start: 120, length: 20 });
        assert_eq!(subject.record(17, &packet, 4), Record { refusal: 6, ..Record::default() });
        assert_eq!(subject.step(17, &packet, 72), Step { refusal: 0, tag: 2, start: 80, length: 8, next: 88 });
        assert_eq!(subject.step(17, &packet, 140), Step { refusal: 6, next: 140, ..Step::default() });
        assert_eq!(subject.point(1, &packet, 0), Point { refusal: 5, ..Point::default() });
        for kind in [0, 1, 2, 15, 16, 18, 273, u32::MAX] {
            assert_eq!(subject.header(kind, &packet), Header { refusal: 5, ..Header::default() });
            assert_eq!(subject.record(kind, &packet, 9), Record { refusal: 5, ..Record::default() });
            assert_eq!(subject.step(kind, &packet, 40), Step { refusal: 5, next: 40, ..Step::default() });
        }
        // A packet of both dialects is one of either kind, and it has no points.
        let both = vital_signs_packet(&[(2, 16)]);
        for kind in [16, 17] {
            assert_eq!((subject.header(kind, &both).refusal, subject.header(kind, &both).objects), (0, 99));
            assert_eq!(subject.record(kind, &both, 0), Record { refusal: 0, tag: 2, start: 48, length: 16 });
            assert_eq!(subject.step(kind, &both, 40), Step { refusal: 0, tag: 2, start: 48, length: 16, next: 64 });
        }
        assert_eq!(subject.point(1, &both, 0), Point { refusal: 7, ..Point::default() });
    }
}

/// Packets in which a type comes again, of the reader and of the library: "a known type (1 to 9) that occurs again, or type 8
/// with 4 present, or 4 with 8, is refused in dialect 1" (paper 02 (vii)).
#[test]
fn a_packet_with_a_repeated_type_is_none() {
    for subject in subjects() {
        for types in [&[1, 1][..], &[1, 10, 1], &[4, 1, 8], &[8, 1, 4], &[1, 5, 5], &[2, 1, 0, 2]] {
            let packet = packet_of_types(types);
            assert_eq!(subject.header(16, &packet), Header { refusal: 5, ..Header::default() }, "{types:?}");
            assert_eq!(subject.record(16, &packet, 0), Record { refusal: 5, ..Record::default() }, "{types:?}");
            assert_eq!(subject.step(16, &packet, 40), Step { refusal: 5, next: 40, ..Step::default() }, "{types:?}");
            assert_eq!(subject.point(1, &packet, 0), Point { refusal: 5, ..Point::default() }, "{types:?}");
        }
        let packet = packet_of_types(&[10, 1, 10, 257, 257]);
        assert_eq!(packet.len(), 160);
        assert_eq!(subject.header(16, &packet).records, 5);
        assert_eq!(subject.record(16, &packet, 2), Record { refusal: 0, tag: 10, start: 96, length: 16 });
        assert_eq!(subject.step(16, &packet, 136), Step { refusal: 0, tag: 257, start: 144, length: 16, next: 160 });
        // The bytes 2 2 2 2 are the float 9.6e-38.
        assert_eq!(subject.point(1, &packet, 0), Point { doppler: 0x0202_0202, ..Point::default() });
        // In vital signs a type may repeat.
        let packet = vital_signs_packet(&[(2, 0), (2, 8), (4, 20), (4, 20), (1, 24), (1, 24)]);
        assert_eq!(subject.header(17, &packet).records, 6);
        assert_eq!(subject.record(17, &packet, 5), Record { refusal: 0, tag: 1, start: 160, length: 24 });
        assert_eq!(subject.step(17, &packet, 48), Step { refusal: 0, tag: 2, start: 56, length: 8, next: 64 });
    }
}

/// Points by each edition, worked out by hand, of the reader and of the library.
#[test]
fn a_point_is_read_by_the_edition() {
    let refused = |refusal| Point { refusal, ..Point::default() };
    let doppler = 0.25f32.to_bits();
    let rows = [[0.0625, -0.0625, 0.1875, 0.25], [-0.3125, 999.9375, -999.8125, 0.25], [0.0, 1000.5, 0.0, 0.25]];
    let packet = packet_of_points(&mut Random::new(1), &rows);
    for subject in subjects() {
        assert_eq!(subject.point(1, &packet, 0), Point { refusal: 0, x: 63, y: -63, z: 188, doppler });
        assert_eq!(subject.point(2, &packet, 0), Point { refusal: 0, x: 62, y: -62, z: 188, doppler });
        assert_eq!(subject.point(1, &packet, 1), Point { refusal: 0, x: -313, y: 999_938, z: -999_813, doppler });
        assert_eq!(subject.point(2, &packet, 1), Point { refusal: 0, x: -312, y: 999_938, z: -999_812, doppler });
        for edition in EDITIONS {
            assert_eq!(subject.point(edition, &packet, 2), refused(31));
        }
        for edition in [0, 3, 4, 255, 256, 257, 258, 1 << 16 | 1, 1 << 31 | 2, u32::MAX] {
            for index in 0..3 {
                assert_eq!(subject.point(edition, &packet, index), refused(32), "{edition}, {index}");
            }
            assert_eq!(subject.point(edition, &packet, 3), refused(6), "{edition}");
            assert_eq!(subject.point(edition, &packet_of_points(&mut Random::new(1), &[]), 0), refused(7), "{edition}");
            assert_eq!(subject.point(edition, &packet[1..], 0), refused(5), "{edition}");
        }
    }
}

// The runs themselves, on the reader and on readers that are wrong on purpose.

#[test]
fn what_is_compared_covers_all_answers() {
    for run in [FRAMES, PACKETS, COMMANDS, WRITTEN_COMMANDS, WRITTEN_FRAMES] {
        assert_all_seen(&run, &compare(&run, &Reference).expect("the reader agrees with itself"));
    }
}

/// The reader with one function replaced, or with another edition for the one named in those of the second list.
macro_rules! wrong {
    (
        $($variant:ident $function:ident ($($argument:ident: $type:ty),*) -> $answer:ty;)*
        { $($by:ident $by_edition:ident ($($other:ident: $other_type:ty),*) -> $other_answer:ty;)* }
    ) => {
        #[derive(Clone, Copy)]
        enum Wrong {
            $($variant(fn($($type),*) -> $answer),)*
            $($by(fn(u32, $($other_type),*) -> $other_answer),)*
            Edition(Renaming),
        }

        impl FieldSubject for Wrong {
            $(fn $function(&self, $($argument: $type),*) -> $answer {
                match self {
                    Wrong::$variant(wrong) => wrong($($argument),*),
                    _ => Reference.$function($($argument),*),
                }
            })*
            $(fn $by_edition(&self, edition: u32, $($other: $other_type),*) -> $other_answer {
                match self {
                    Wrong::$by(wrong) => wrong(edition, $($other),*),
                    Wrong::Edition(other) => Reference.$by_edition(other(edition), $($other),*),
                    _ => Reference.$by_edition(edition, $($other),*),
                }
            })*
        }
    };
}

wrong! {
    Header header(kind: u32, packet: &[u8]) -> Header;
    Record record(kind: u32, packet: &[u8], index: usize) -> Record;
    Step step(kind: u32, packet: &[u8], place: usize) -> Step;
    ReadCommand read_command(bytes: &[u8]) -> Command;
    WriteCommand write_command(output: &mut [u8], command: Command) -> Written;
    ReadData read_data(frame: &[u8]) -> DataFrame;
    ReadTargets read_targets(frame: &[u8]) -> TargetFrame;
    ReadError read_error(frame: &[u8]) -> ErrorFrame;
    WriteData write_data(output: &mut [u8], kind: u32, content: &[u8]) -> Written;
    WriteTargets write_targets(output: &mut [u8], frame: TargetFrame) -> Written;
    WriteStatus write_status(output: &mut [u8], status: StatusFrame) -> Written;
    WriteError write_error(output: &mut [u8], flags: u16) -> Written;
    {
        Point point(packet: &[u8], index: usize) -> Point;
        ReadStatus read_status(frame: &[u8]) -> StatusFrame;
    }
}

fn word(bytes: &[u8], place: usize) -> Option<u32> {
    Some(u32::from_le_bytes(bytes.get(place..place + 4)?.try_into().ok()?))
}

/// The bytes with another word at a place; the same where there is none.
fn word_with(bytes: &[u8], place: usize, change: fn(u32) -> u32) -> Vec<u8> {
    let mut bytes = bytes.to_vec();
    if let Some(word) = word(&bytes, place) {
        bytes[place..place + 4].copy_from_slice(&change(word).to_le_bytes());
    }
    bytes
}

/// Where the records of a type start.
fn starts_of(packet: &[u8], tag: u32) -> Vec<usize> {
    let count = Reference.header(16, packet).records as usize;
    let records = (0..count).map(|index| Reference.record(16, packet, index));
    records.filter(|record| record.tag == tag).map(|record| record.start as usize - 8).collect()
}

fn refused(refusal: u32) -> Written {
    Written { refusal, size: 0 }
}

const WRONG_PACKETS: &[(&str, Wrong)] = &[
    ("every packet is refused", Wrong::Header(|_, _| Header { refusal: 5, ..Header::default() })),
    (
        "time and frame number change places",
        Wrong::Header(|kind, p| {
            let right = Reference.header(kind, p);
            Header { time: right.frame, frame: right.time, ..right }
        }),
    ),
    (
        "bytes behind a packet are ignored",
        Wrong::Header(|kind, p| Reference.header(kind, p.get(..word(p, 12).unwrap_or(0) as usize).unwrap_or(p))),
    ),
    (
        "a payload starts at its record",
        Wrong::Record(|kind, p, index| {
            let right = Reference.record(kind, p, index);
            Record { start: right.start.saturating_sub(8), ..right }
        }),
    ),
    ("a record's index has 32 bits", Wrong::Record(|kind, p, index| Reference.record(kind, p, index as u32 as usize))),
    ("records count from 1", Wrong::Record(|kind, p, index| Reference.record(kind, p, index.saturating_sub(1)))),
    (
        "6 goes before 5",
        Wrong::Record(|kind, p, index| match Reference.record(kind, p, index) {
            right if right.refusal == 5 && index > 32 => Record { refusal: 6, ..right },
            right => right,
        }),
    ),
    ("a place has 32 bits", Wrong::Step(|kind, p, place| Reference.step(kind, p, place as u32 as usize))),
    (
        "a refused step goes back to the start",
        Wrong::Step(|kind, p, place| match Reference.step(kind, p, place) {
            right if right.refusal != 0 => Step { next: 40, ..right },
            right => right,
        }),
    ),
    (
        "a step is over the payload only",
        Wrong::Step(|kind, p, place| {
            let right = Reference.step(kind, p, place);
            Step { next: if right.refusal == 0 { right.start + right.length - 8 } else { right.next }, ..right }
        }),
    ),
    ("a step from anywhere gives the first record", Wrong::Step(|kind, p, _| Reference.step(kind, p, 40))),
    ("a point's index has 32 bits", Wrong::Point(|e, p, index| Reference.point(e, p, index as u32 as usize))),
    (
        "6 goes before 7",
        Wrong::Point(|e, p, index| match Reference.point(e, p, index) {
            right if right.refusal == 7 && index >= Reference.header(16, p).objects as usize => {
                Point { refusal: 6, ..right }
            }
            right => right,
        }),
    ),
    (
        "30 goes before 31",
        Wrong::Point(|e, p, index| match (Reference.point(e, p, index), starts_of(p, 1).first()) {
            (right, Some(&start)) if right.refusal == 31 => {
                let coordinates = [8, 12, 16].map(|offset| word(p, start + offset + 16 * index).unwrap_or(0));
                let none = coordinates.iter().any(|bits| bits & 0x7F80_0000 == 0x7F80_0000);
                Point { refusal: if none { 30 } else { 31 }, ..right }
            }
            (right, _) => right,
        }),
    ),
    (
        "Doppler is judged too",
        Wrong::Point(|e, p, index| match Reference.point(e, p, index) {
            right if f32::from_bits(right.doppler).is_nan() => Point { refusal: 30, ..Point::default() },
            right => right,
        }),
    ),
    (
        "X and Z change places",
        Wrong::Point(|e, p, index| {
            let right = Reference.point(e, p, index);
            Point { x: right.z, z: right.x, ..right }
        }),
    ),
    ("a header of kind 17 is refused", Wrong::Header(|kind, p| Reference.header(if kind == 17 { 0 } else { kind }, p))),
    (
        "records of kind 17 are refused",
        Wrong::Record(|kind, p, index| match kind {
            17 => Record { refusal: 5, ..Record::default() },
            _ => Reference.record(kind, p, index),
        }),
    ),
    ("a header of kind 18 is read", Wrong::Header(|kind, p| Reference.header(if kind == 18 { 17 } else { kind }, p))),
    ("records of kind 15 are read", Wrong::Record(|kind, p, index| Reference.record(kind.max(16), p, index))),
    (
        "steps of kind 18 are read",
        Wrong::Step(|kind, p, place| Reference.step(if kind == 18 { 16 } else { kind }, p, place)),
    ),
    ("a kind has 8 bits", Wrong::Header(|kind, p| Reference.header(kind & 255, p))),
    ("a step's kind has 8 bits", Wrong::Step(|kind, p, place| Reference.step(kind & 255, p, place))),
    (
        "the dialect is taken for the kind",
        Wrong::Header(|kind, p| Reference.header(if kind < 3 { kind + 15 } else { kind }, p)),
    ),
    (
        "the kind is not looked at",
        Wrong::Header(|kind, p| match Reference.header(16, p) {
            right if right.refusal == 0 => right,
            _ => Reference.header(if kind == 16 { 17 } else { kind }, p),
        }),
    ),
    (
        "a packet of both kinds is one of kind 16 only",
        Wrong::Header(|kind, p| match Reference.header(16, p).refusal {
            0 if kind == 17 => Header { refusal: 5, ..Header::default() },
            _ => Reference.header(kind, p),
        }),
    ),
    (
        "a packet of both kinds is one of kind 17 only",
        Wrong::Step(|kind, p, place| match Reference.header(17, p).refusal {
            0 if kind == 16 => Step { refusal: 5, next: place as u64, ..Step::default() },
            _ => Reference.step(kind, p, place),
        }),
    ),
    ("records of kind 17 are read by mmWave's rules", Wrong::Record(|_, p, index| Reference.record(16, p, index))),
    (
        "99 is not shown as the object count",
        Wrong::Header(|kind, p| {
            let right = Reference.header(kind, p);
            Header { objects: if kind == 17 { 0 } else { right.objects }, ..right }
        }),
    ),
    (
        "an unknown kind is 6 to a record",
        Wrong::Record(|kind, p, index| match Reference.record(kind, p, index) {
            right if right.refusal == 5 && !(16..=17).contains(&kind) => Record { refusal: 6, ..right },
            right => right,
        }),
    ),
    (
        "an unknown kind moves the place",
        Wrong::Step(|kind, p, place| match Reference.step(kind, p, place) {
            right if right.refusal == 5 && !(16..=17).contains(&kind) => Step { next: 0, ..right },
            right => right,
        }),
    ),
    (
        "points are read of kind 17",
        Wrong::Point(|e, p, index| match Reference.point(e, p, index) {
            right if right.refusal == 5 && Reference.header(17, p).refusal == 0 => Point { refusal: 7, ..right },
            right => right,
        }),
    ),
];

/// The packet with a free type in these records, where it is asked for kind 16.
fn freed(kind: u32, packet: &[u8], places: &[usize]) -> Vec<u8> {
    let places = if kind == 16 { places } else { &[] };
    places.iter().fold(packet.to_vec(), |bytes, &place| word_with(&bytes, place, |_| 10))
}

/// The packet as if its types could come again.
fn forgiven(kind: u32, packet: &[u8]) -> Vec<u8> {
    freed(kind, packet, &repeated(packet, is_excluded))
}

/// The record, with the type that stands in the packet.
fn with_own_tag(packet: &[u8], record: Record) -> Record {
    match record.refusal {
        0 => Record { tag: word(packet, record.start as usize - 8).unwrap_or(0), ..record },
        _ => record,
    }
}

const WRONG_TYPES: &[(&str, Wrong)] = &[
    ("a type may come again in a header's packet", Wrong::Header(|kind, p| Reference.header(kind, &forgiven(kind, p)))),
    (
        "a type may come again in a record's packet",
        Wrong::Record(|kind, p, index| with_own_tag(p, Reference.record(kind, &forgiven(kind, p), index))),
    ),
    (
        "records in front of a repeated type are read",
        Wrong::Record(|kind, p, index| match tags(p).get(index) {
            Some((place, _)) if repeated(p, is_excluded).first().is_some_and(|first| place < first) => {
                Reference.record(kind, &forgiven(kind, p), index)
            }
            _ => Reference.record(kind, p, index),
        }),
    ),
    (
        "4 and 8 go together in a step's packet",
        Wrong::Step(|kind, p, place| {
            let only_4_and_8 = |tag: u32, before: &[u32]| is_excluded(tag, before) && !before.contains(&tag);
            match Reference.step(kind, &freed(kind, p, &repeated(p, only_4_and_8)), place) {
                step if step.refusal == 0 => Step { tag: word(p, place).unwrap_or(0), ..step },
                step => step,
            }
        }),
    ),
    (
        "a type may come again, and points come from the first record of type 1",
        Wrong::Point(|e, p, index| Reference.point(e, &forgiven(16, p), index)),
    ),
    (
        "a type may come again, and points come from the last record of type 1",
        Wrong::Point(|e, p, index| {
            let starts: Vec<usize> = tags(p).into_iter().filter(|&(_, tag)| tag == 1).map(|(place, _)| place).collect();
            let others = starts.split_last().map_or(&[][..], |(_, others)| others);
            Reference.point(e, &forgiven(16, &freed(16, p, others)), index)
        }),
    ),
    (
        "points of a packet with a repeated type are refused with 7",
        Wrong::Point(|e, p, index| match Reference.point(e, p, index) {
            right if right.refusal == 5 && Reference.header(16, &forgiven(16, p)).refusal == 0 => {
                Point { refusal: 7, ..right }
            }
            right => right,
        }),
    ),
    (
        "no type may come again in a header's packet",
        Wrong::Header(|kind, p| match repeated(p, |tag, before| before.contains(&tag)).is_empty() {
            false if kind == 16 => Header { refusal: 5, ..Header::default() },
            _ => Reference.header(kind, p),
        }),
    ),
    (
        "no type may come again in a header's packet of kind 17",
        Wrong::Header(|kind, p| match repeated(p, is_excluded).is_empty() {
            false => Header { refusal: 5, ..Header::default() },
            true => Reference.header(kind, p),
        }),
    ),
];

const WRONG_COMMANDS: &[(&str, Wrong)] = &[
    ("rest bits are fine", Wrong::ReadCommand(|b| Reference.read_command(&word_with(b, 0, |w| w & 0x801F_FFFF)))),
    ("bit 30 is fine", Wrong::ReadCommand(|b| Reference.read_command(&word_with(b, 0, |w| w & !(1 << 30))))),
    (
        "43 goes before 42",
        Wrong::ReadCommand(|b| match Reference.read_command(b) {
            right if right.refusal == 42 => Command { refusal: 43, ..right },
            right => right,
        }),
    ),
    ("RD is lost", Wrong::ReadCommand(|b| Command { rd: 0, ..Reference.read_command(b) })),
    (
        "the header counts as a payload word",
        Wrong::ReadCommand(|b| {
            let right = Reference.read_command(b);
            Command { count: if right.refusal == 0 { right.count + 1 } else { 0 }, ..right }
        }),
    ),
    (
        "words have their most significant byte first",
        Wrong::ReadCommand(|b| {
            let right = Reference.read_command(b);
            Command { words: right.words.map(u32::swap_bytes), ..right }
        }),
    ),
    (
        "a selection of 5 is fine",
        Wrong::ReadCommand(|b| match (word(b, 0).unwrap_or(0) & 0xFFFF, word(b, 4)) {
            (0x6006, Some(5)) => Reference.read_command(&word_with(b, 4, |_| 4)),
            _ => Reference.read_command(b),
        }),
    ),
    (
        "the first word of 9017 selects",
        Wrong::ReadCommand(|b| match (Reference.read_command(b), word(b, 4)) {
            (right, Some(4..)) if right.code == 0x9017 => Command { refusal: 46, ..Command::default() },
            (right, _) => right,
        }),
    ),
    (
        "46 goes before 45",
        Wrong::ReadCommand(|b| match (Reference.read_command(b), word(b, 0).unwrap_or(0) & 0xFFFF, word(b, 4)) {
            (right, 0x6006, Some(5..)) if right.refusal == 45 => Command { refusal: 46, ..right },
            (right, ..) => right,
        }),
    ),
    (
        "three bytes are a wrong byte count",
        Wrong::ReadCommand(|b| match Reference.read_command(b) {
            right if right.refusal == 40 => Command { refusal: 43, ..right },
            right => right,
        }),
    ),
];

const WRONG_WRITTEN_COMMANDS: &[(&str, Wrong)] = &[
    (
        "a byte behind the command is changed",
        Wrong::WriteCommand(|output, command| {
            let right = Reference.write_command(output, command);
            if let Some(byte) = output.get_mut(right.size as usize).filter(|_| right.refusal == 0) {
                *byte = 0;
            }
            right
        }),
    ),
    (
        "an output too short is written in part",
        Wrong::WriteCommand(|output, command| {
            let right = Reference.write_command(output, command);
            if right.refusal == 51 {
                output.fill(0);
            }
            right
        }),
    ),
    (
        "51 goes before 46",
        Wrong::WriteCommand(|output, command| match Reference.write_command(output, command) {
            right if right.refusal == 46 && output.len() < 4 * (command.count as usize + 1) => refused(51),
            right => right,
        }),
    ),
    (
        "an RD that is not 0 is RD",
        Wrong::WriteCommand(|output, command| {
            Reference.write_command(output, Command { rd: command.rd.min(1), ..command })
        }),
    ),
    (
        "RD is the lowest bit",
        Wrong::WriteCommand(|output, command| {
            Reference.write_command(output, Command { rd: command.rd & 1, ..command })
        }),
    ),
    (
        "50 goes before 46",
        Wrong::WriteCommand(|output, command| match Reference.write_command(output, command) {
            right if right.refusal == 46 && command.rd > 1 => refused(50),
            right => right,
        }),
    ),
    (
        "51 goes before 50",
        Wrong::WriteCommand(|output, command| match Reference.write_command(output, command) {
            right if right.refusal == 50 && output.len() < 4 * (command.count as usize + 1) => refused(51),
            right => right,
        }),
    ),
    (
        "a code's upper half is ignored",
        Wrong::WriteCommand(|output, command| {
            Reference.write_command(output, Command { code: command.code & 0xFFFF, ..command })
        }),
    ),
    (
        "a refused command is not written",
        Wrong::WriteCommand(|output, command| match command.refusal {
            0 => Reference.write_command(output, command),
            refusal => refused(refusal),
        }),
    ),
];

/// The T frame as read, but for its blocks: each is changed by what it is in the frame and as read.
fn blocks_with(frame: &[u8], change: fn(&[u8], Target) -> Target) -> TargetFrame {
    let mut right = Reference.read_targets(frame);
    if right.refusal == 0 {
        for (block, target) in frame[4..].chunks(14).zip(&mut right.targets) {
            *target = change(block, *target);
        }
    }
    right
}

/// What is read of an empty block.
const EMPTY: Target = Target { number: 0, empty: 1, distance: 0, magnitude: 0, phase: 0 };

/// A target whose written block would be all `0`.
const ALL_ZERO: Target = Target { number: 0, empty: 0, distance: 0, magnitude: 48, phase: 0 };

fn empty_if(empty: bool, target: Target) -> Target {
    if empty {
        EMPTY
    } else {
        target
    }
}

const WRONG_FRAMES: &[(&str, Wrong)] = &[
    (
        "P and C are one kind",
        Wrong::ReadData(|f| {
            let right = Reference.read_data(f);
            DataFrame { kind: right.kind.min(2), ..right }
        }),
    ),
    (
        "data start behind the size",
        Wrong::ReadData(|f| {
            let right = Reference.read_data(f);
            DataFrame { start: right.start.min(6), ..right }
        }),
    ),
    (
        "the last block is lost",
        Wrong::ReadTargets(|f| {
            let mut right = Reference.read_targets(f);
            right.targets[15] = Default::default();
            right
        }),
    ),
    (
        "negative phases are one too small",
        Wrong::ReadTargets(|f| {
            let mut right = Reference.read_targets(f);
            right.targets[3].phase -= i16::from(right.targets[3].phase < -1);
            right
        }),
    ),
    (
        "blocks are numbered by their place",
        Wrong::ReadTargets(|f| {
            let mut right = Reference.read_targets(f);
            if right.refusal == 0 {
                (0..).zip(&mut right.targets).for_each(|(number, target)| target.number = number);
            }
            right
        }),
    ),
    (
        "a block of value 0 is not called empty",
        Wrong::ReadTargets(|f| {
            blocks_with(f, |block, target| if block[0] == 0 { Target { empty: 0, ..target } } else { target })
        }),
    ),
    (
        "a block of `0` is a target",
        Wrong::ReadTargets(|f| {
            blocks_with(f, |block, target| if block[..10] == [b'0'; 10] { ALL_ZERO } else { target })
        }),
    ),
    (
        "a block of `0` with other reserved bytes is a target",
        Wrong::ReadTargets(|f| {
            blocks_with(f, |block, target| match block.split_at(10) {
                (b"0000000000", reserved) if reserved != b"0000" => ALL_ZERO,
                _ => target,
            })
        }),
    ),
    (
        "nine `0` are an empty block",
        Wrong::ReadTargets(|f| blocks_with(f, |block, target| empty_if(block[..9] == [b'0'; 9], target))),
    ),
    (
        "the number of an empty block is free",
        Wrong::ReadTargets(|f| blocks_with(f, |block, target| empty_if(block[1..10] == [b'0'; 9], target))),
    ),
    (
        "the magnitude of an empty block is free",
        Wrong::ReadTargets(|f| {
            blocks_with(f, |block, target| empty_if(block[..5] == [b'0'; 5] && block[6..10] == [b'0'; 4], target))
        }),
    ),
    (
        "a target at distance 0 is empty",
        Wrong::ReadTargets(|f| blocks_with(f, |_, target| empty_if(target.distance == 0, target))),
    ),
    (
        "an empty block keeps its magnitude",
        Wrong::ReadTargets(|f| {
            blocks_with(f, |block, target| Target { magnitude: if block[0] == 0 { 0 } else { block[5] }, ..target })
        }),
    ),
    (
        "an empty block of value 0 has a magnitude of `0`",
        Wrong::ReadTargets(|f| {
            blocks_with(f, |block, target| if block[0] == 0 { Target { magnitude: 48, ..target } } else { target })
        }),
    ),
    (
        "the second form has a number of its own",
        Wrong::ReadTargets(|f| {
            blocks_with(f, |block, target| if block[0] == 0 { Target { empty: 2, ..target } } else { target })
        }),
    ),
    (
        "empty is 0 and a target 1",
        Wrong::ReadTargets(|f| blocks_with(f, |_, target| Target { empty: 1 - target.empty, ..target })),
    ),
    (
        "the blocks of a refused frame are empty",
        Wrong::ReadTargets(|f| match Reference.read_targets(f) {
            right if right.refusal != 0 => TargetFrame { targets: [EMPTY; 16], ..right },
            right => right,
        }),
    ),
    (
        "targets go before empty blocks",
        Wrong::ReadTargets(|f| {
            let mut right = Reference.read_targets(f);
            right.targets.sort_by_key(|target| target.empty);
            right
        }),
    ),
    (
        "all blocks behind an empty one are empty",
        Wrong::ReadTargets(|f| {
            let mut right = Reference.read_targets(f);
            let first = right.targets.iter().position(|target| target.empty == 1).unwrap_or(16);
            right.targets[first..].fill(EMPTY);
            right
        }),
    ),
    (
        "a frame with blocks of value 0 is refused",
        Wrong::ReadTargets(|f| match Reference.read_targets(f) {
            right if right.refusal == 0 && f[4..].chunks(14).any(|block| block[0] == 0) => {
                TargetFrame { refusal: 5, ..TargetFrame::default() }
            }
            right => right,
        }),
    ),
    (
        "a block that breaks is read as empty",
        Wrong::ReadTargets(|f| {
            let mut mended = f.to_vec();
            if f.len() == 230 {
                mended[4..228].chunks_mut(14).filter(|block| block[0] == 0).for_each(|block| block.fill(0));
            }
            Reference.read_targets(&mended)
        }),
    ),
    (
        "the accuracy is cut off to millimetres",
        Wrong::ReadStatus(|e, f| {
            let right = Reference.read_status(e, f);
            StatusFrame { accuracy_mm: right.accuracy / 10, ..right }
        }),
    ),
    (
        "max range and ramp time change places",
        Wrong::ReadStatus(|e, f| {
            let right = Reference.read_status(e, f);
            StatusFrame { max_range: right.ramp_time, ramp_time: right.max_range, ..right }
        }),
    ),
    ("bytes behind a frame are ignored", Wrong::ReadError(|f| Reference.read_error(&f[..f.len().min(8)]))),
    (
        "a frame of another kind has no flags",
        Wrong::ReadError(|f| match Reference.read_error(f) {
            right if Reference.read_status(1, f).refusal == 0 => ErrorFrame { refusal: 0, ..right },
            right => right,
        }),
    ),
];

/// A point whose coordinates are rounded so by one edition.
fn rounded_point(by: u32, (edition, packet, index): (u32, &[u8], usize), round: fn(f64) -> f64) -> Point {
    match Reference.point(edition, packet, index) {
        right if right.refusal == 0 && edition == by => {
            let start = starts_of(packet, 1)[0] + 8 + 16 * index;
            let metres = [0, 4, 8].map(|offset| f32::from_bits(word(packet, start + offset).unwrap_or(0)));
            let [x, y, z] = metres.map(|metres| round(1000.0 * f64::from(metres)) as i32);
            Point { x, y, z, ..right }
        }
        right => right,
    }
}

/// A point by one edition of which a part is by the other one.
fn mixed_point(by: u32, (edition, packet, index): (u32, &[u8], usize), mix: fn(Point, Point) -> Point) -> Point {
    match Reference.point(edition, packet, index) {
        right if edition == by => mix(right, Reference.point(3 - by, packet, index)),
        right => right,
    }
}

/// What edition 1 answers, if the edition is none and the answer is such.
fn point_by_edition_1((edition, packet, index): (u32, &[u8], usize), if_such: fn(Point) -> bool) -> Point {
    match Reference.point(1, packet, index) {
        answer if is_wrong(edition) && if_such(answer) => answer,
        _ => Reference.point(edition, packet, index),
    }
}

/// The right answer, but 32 for one that is refused so by an edition that is none.
fn point_refused_before(refusal: u32, (edition, packet, index): (u32, &[u8], usize)) -> Point {
    match Reference.point(edition, packet, index) {
        right if right.refusal == refusal && is_wrong(edition) => Point { refusal: 32, ..right },
        right => right,
    }
}

/// The right answer, with something else where it is 32.
fn point_if_32((edition, packet, index): (u32, &[u8], usize), change: fn(Point, Point) -> Point) -> Point {
    match Reference.point(edition, packet, index) {
        right if right.refusal == 32 => change(right, Reference.point(1, packet, index)),
        right => right,
    }
}

const WRONG_POINTS: &[(&str, Wrong)] = &[
    ("halves to even by edition 1", Wrong::Point(|e, p, index| rounded_point(1, (e, p, index), f64::round_ties_even))),
    ("halves away from zero by edition 2", Wrong::Point(|e, p, index| rounded_point(2, (e, p, index), f64::round))),
    ("halves up by edition 1", Wrong::Point(|e, p, index| rounded_point(1, (e, p, index), |v| (v + 0.5).floor()))),
    ("halves up by edition 2", Wrong::Point(|e, p, index| rounded_point(2, (e, p, index), |v| (v + 0.5).floor()))),
    ("halves down by edition 2", Wrong::Point(|e, p, index| rounded_point(2, (e, p, index), |v| (v - 0.5).ceil()))),
    (
        "halves towards zero by edition 2",
        Wrong::Point(|e, p, index| rounded_point(2, (e, p, index), |v| (v.abs() - 0.5).ceil().copysign(v))),
    ),
    (
        "halves to even above zero only",
        Wrong::Point(|e, p, index| {
            rounded_point(2, (e, p, index), |v| if v > 0.0 { v.round_ties_even() } else { v.round() })
        }),
    ),
    (
        "multiplied as a short float by edition 2",
        Wrong::Point(|e, p, index| {
            rounded_point(2, (e, p, index), |v| f64::from(((v / 1000.0) as f32 * 1000.0).round_ties_even()))
        }),
    ),
    (
        "X is by edition 1",
        Wrong::Point(|e, p, index| mixed_point(2, (e, p, index), |p, by_1| Point { x: by_1.x, ..p })),
    ),
    (
        "Y is by edition 1",
        Wrong::Point(|e, p, index| mixed_point(2, (e, p, index), |p, by_1| Point { y: by_1.y, ..p })),
    ),
    (
        "Z is by edition 1",
        Wrong::Point(|e, p, index| mixed_point(2, (e, p, index), |p, by_1| Point { z: by_1.z, ..p })),
    ),
    (
        "X is by edition 2",
        Wrong::Point(|e, p, index| mixed_point(1, (e, p, index), |p, by_2| Point { x: by_2.x, ..p })),
    ),
    (
        "Y is by edition 2",
        Wrong::Point(|e, p, index| mixed_point(1, (e, p, index), |p, by_2| Point { y: by_2.y, ..p })),
    ),
    (
        "Z is by edition 2",
        Wrong::Point(|e, p, index| mixed_point(1, (e, p, index), |p, by_2| Point { z: by_2.z, ..p })),
    ),
    (
        "the edition is that of the first point only",
        Wrong::Point(|e, p, index| Reference.point(if e == 2 && index > 0 { 1 } else { e }, p, index)),
    ),
    ("32 goes before 5", Wrong::Point(|e, p, index| point_refused_before(5, (e, p, index)))),
    ("32 goes before 7", Wrong::Point(|e, p, index| point_refused_before(7, (e, p, index)))),
    ("32 goes before 6", Wrong::Point(|e, p, index| point_refused_before(6, (e, p, index)))),
    ("30 goes before 32", Wrong::Point(|e, p, index| point_by_edition_1((e, p, index), |answer| answer.refusal == 30))),
    ("31 goes before 32", Wrong::Point(|e, p, index| point_by_edition_1((e, p, index), |answer| answer.refusal == 31))),
    (
        "an edition is refused only at a half",
        Wrong::Point(|e, p, index| match EDITIONS.map(|edition| Reference.point(edition, p, index)) {
            [first, second] if is_wrong(e) && first == second => first,
            _ => Reference.point(e, p, index),
        }),
    ),
    (
        "32 leaves the point",
        Wrong::Point(|e, p, index| point_if_32((e, p, index), |_, by_1| Point { refusal: 32, ..by_1 })),
    ),
    (
        "32 leaves the Doppler velocity",
        Wrong::Point(|e, p, index| point_if_32((e, p, index), |p, by_1| Point { doppler: by_1.doppler, ..p })),
    ),
    ("32 is told as 6", Wrong::Point(|e, p, index| point_if_32((e, p, index), |p, _| Point { refusal: 6, ..p }))),
];

/// A U frame whose accuracy in millimetres is another by one edition; the change is told the millimetres and the tenths over.
fn accuracy_with(by: u32, (edition, frame): (u32, &[u8]), change: fn(u16, u16) -> u16) -> StatusFrame {
    match Reference.read_status(edition, frame) {
        right if right.refusal == 0 && edition == by => {
            StatusFrame { accuracy_mm: change(right.accuracy / 10, right.accuracy % 10), ..right }
        }
        right => right,
    }
}

/// The right answer, with something else where it is 32; the change is told what edition 1 answers.
fn status_if_32((edition, frame): (u32, &[u8]), change: fn(StatusFrame, StatusFrame) -> StatusFrame) -> StatusFrame {
    match Reference.read_status(edition, frame) {
        right if right.refusal == 32 => change(right, Reference.read_status(1, frame)),
        right => right,
    }
}

const WRONG_STATUS: &[(&str, Wrong)] = &[
    (
        "halves to even by edition 1",
        Wrong::ReadStatus(|e, f| {
            accuracy_with(1, (e, f), |mm, rest| mm + u16::from(rest > 5) + if rest == 5 { mm % 2 } else { 0 })
        }),
    ),
    (
        "halves up by edition 2",
        Wrong::ReadStatus(|e, f| accuracy_with(2, (e, f), |mm, rest| mm + u16::from(rest >= 5))),
    ),
    (
        "halves down by edition 1",
        Wrong::ReadStatus(|e, f| accuracy_with(1, (e, f), |mm, rest| mm + u16::from(rest > 5))),
    ),
    (
        "halves down by edition 2",
        Wrong::ReadStatus(|e, f| accuracy_with(2, (e, f), |mm, rest| mm + u16::from(rest > 5))),
    ),
    (
        "halves to odd by edition 2",
        Wrong::ReadStatus(|e, f| {
            accuracy_with(2, (e, f), |mm, rest| mm + u16::from(rest > 5 || (rest == 5 && mm % 2 == 0)))
        }),
    ),
    (
        "4 tenths are a half too",
        Wrong::ReadStatus(|e, f| {
            accuracy_with(2, (e, f), |mm, rest| mm + u16::from(rest > 5 || (rest >= 4 && mm % 2 == 1)))
        }),
    ),
    (
        "6 tenths are a half too",
        Wrong::ReadStatus(|e, f| {
            accuracy_with(2, (e, f), |mm, rest| mm + u16::from(rest > 6 || (rest >= 5 && mm % 2 == 1)))
        }),
    ),
    ("cut off by edition 2", Wrong::ReadStatus(|e, f| accuracy_with(2, (e, f), |mm, _| mm))),
    (
        "halves from 256 mm on go up",
        Wrong::ReadStatus(|e, f| {
            accuracy_with(2, (e, f), |mm, rest| mm + u16::from(rest > 5 || (rest == 5 && (mm > 255 || mm % 2 == 1))))
        }),
    ),
    (
        "the accuracy as sent is by the edition too",
        Wrong::ReadStatus(|e, f| match Reference.read_status(e, f) {
            right if e == 2 => StatusFrame { accuracy: 10 * right.accuracy_mm.min(6553), ..right },
            right => right,
        }),
    ),
    (
        "32 goes before 5",
        Wrong::ReadStatus(|e, f| match Reference.read_status(e, f) {
            right if is_wrong(e) => StatusFrame { refusal: 32, ..right },
            right => right,
        }),
    ),
    (
        "an edition is refused only at a half",
        Wrong::ReadStatus(|e, f| match EDITIONS.map(|edition| Reference.read_status(edition, f)) {
            [first, second] if is_wrong(e) && first == second => first,
            _ => Reference.read_status(e, f),
        }),
    ),
    (
        "32 leaves the fields",
        Wrong::ReadStatus(|e, f| status_if_32((e, f), |_, by_1| StatusFrame { refusal: 32, ..by_1 })),
    ),
    (
        "32 leaves the accuracy as sent",
        Wrong::ReadStatus(|e, f| status_if_32((e, f), |right, by_1| StatusFrame { accuracy: by_1.accuracy, ..right })),
    ),
    (
        "32 leaves the time difference",
        Wrong::ReadStatus(|e, f| {
            status_if_32((e, f), |right, by_1| StatusFrame { time_difference: by_1.time_difference, ..right })
        }),
    ),
    (
        "by another edition only the millimetres are not there",
        Wrong::ReadStatus(|e, f| status_if_32((e, f), |_, by_1| StatusFrame { accuracy_mm: 0, ..by_1 })),
    ),
    ("32 is told as 5", Wrong::ReadStatus(|e, f| status_if_32((e, f), |right, _| StatusFrame { refusal: 5, ..right }))),
];

/// Writes the frame with other blocks in place of its own.
fn written_with(output: &mut [u8], frame: TargetFrame, change: fn(usize, Target) -> Target) -> Written {
    let targets = std::array::from_fn(|index| change(index, frame.targets[index]));
    Reference.write_targets(output, TargetFrame { targets, ..frame })
}

/// Refuses 54 also for a target that would be all `0` if one field were.
fn all_zero_but(output: &mut [u8], frame: TargetFrame, change: fn(&mut Target)) -> Written {
    let mut targets = frame.targets;
    targets.iter_mut().for_each(change);
    match Reference.write_targets(output, frame) {
        right if [0, 51].contains(&right.refusal) && targets.contains(&ALL_ZERO) => refused(54),
        right => right,
    }
}

const WRONG_WRITTEN_FRAMES: &[(&str, Wrong)] = &[
    (
        "254 is no character",
        Wrong::WriteData(|output, kind, content| match content.contains(&254) {
            true if Reference.write_data(output, kind, content).refusal == 0 => refused(50),
            _ => Reference.write_data(output, kind, content),
        }),
    ),
    (
        "255 is a character",
        Wrong::WriteData(|output, kind, content| {
            let content: Vec<u8> = content.iter().map(|&byte| byte.min(254)).collect();
            Reference.write_data(output, kind, &content)
        }),
    ),
    (
        "50 goes before 52",
        Wrong::WriteData(|output, kind, content| match Reference.write_data(output, kind, content) {
            right if right.refusal == 52 && content.iter().any(|byte| !(34..=254).contains(byte)) => refused(50),
            right => right,
        }),
    ),
    (
        "52 goes before 53",
        Wrong::WriteData(|output, kind, content| match Reference.write_data(output, kind, content) {
            right if right.refusal == 53 && content.len() > 65_535 => refused(52),
            right => right,
        }),
    ),
    (
        "51 goes before 50",
        Wrong::WriteTargets(|output, frame| match Reference.write_targets(output, frame) {
            right if right.refusal == 50 && output.len() < 230 => refused(51),
            right => right,
        }),
    ),
    (
        "reserved bytes stay as they were",
        Wrong::WriteTargets(|output, frame| {
            let before = output.get(14..18).map(<[u8]>::to_vec);
            let right = Reference.write_targets(output, frame);
            if let (0, Some(before)) = (right.refusal, before) {
                output[14..18].copy_from_slice(&before);
            }
            right
        }),
    ),
    (
        "a number of 16 is written as 0",
        Wrong::WriteTargets(|output, mut frame| {
            frame.targets.iter_mut().for_each(|target| target.number &= 15);
            Reference.write_targets(output, frame)
        }),
    ),
    (
        "54 goes before a 50 of a later block",
        Wrong::WriteTargets(|output, frame| match Reference.write_targets(output, frame) {
            right if right.refusal == 50 => {
                // Nothing is wrong before the first such target.
                let first = frame.targets.iter().position(|&target| target == ALL_ZERO).unwrap_or(16);
                let mut before = frame;
                before.targets[first..].fill(EMPTY);
                let before = Reference.write_targets(&mut [0; 230], before).refusal;
                refused(if first < 16 && before == 0 { 54 } else { 50 })
            }
            right => right,
        }),
    ),
    (
        "54 goes before 50",
        Wrong::WriteTargets(|output, frame| match Reference.write_targets(output, frame) {
            right if right.refusal == 50 && frame.targets.contains(&ALL_ZERO) => refused(54),
            right => right,
        }),
    ),
    (
        "54 goes before an empty value without an encoding",
        Wrong::WriteTargets(|output, frame| match Reference.write_targets(output, frame) {
            right if right.refusal == 50 && frame.targets.contains(&ALL_ZERO) => {
                let known = frame.targets.map(|target| Target { empty: target.empty.min(1), ..target });
                let known = TargetFrame { targets: known, ..frame };
                refused(Reference.write_targets(&mut [0; 230], known).refusal)
            }
            right => right,
        }),
    ),
    (
        "51 goes before 54",
        Wrong::WriteTargets(|output, frame| match Reference.write_targets(output, frame) {
            right if right.refusal == 54 && output.len() < 230 => refused(51),
            right => right,
        }),
    ),
    (
        "54 for an empty block",
        Wrong::WriteTargets(|output, frame| {
            let all_zero = |target: &Target| Target { empty: 0, ..*target } == ALL_ZERO;
            match frame.targets.iter().any(all_zero) {
                true if [0, 51].contains(&Reference.write_targets(&mut [], frame).refusal) => refused(54),
                _ => Reference.write_targets(output, frame),
            }
        }),
    ),
    (
        "54 for sixteen empty blocks",
        Wrong::WriteTargets(|output, frame| match frame.targets.iter().all(|target| target.empty == 1) {
            true if Reference.write_targets(&mut [], frame).refusal == 51 => refused(54),
            _ => Reference.write_targets(output, frame),
        }),
    ),
    ("54 whatever the number", Wrong::WriteTargets(|o, f| all_zero_but(o, f, |target| target.number = 0))),
    ("54 whatever the distance", Wrong::WriteTargets(|o, f| all_zero_but(o, f, |target| target.distance = 0))),
    ("54 whatever the magnitude", Wrong::WriteTargets(|o, f| all_zero_but(o, f, |target| target.magnitude = 48))),
    ("54 whatever the phase", Wrong::WriteTargets(|o, f| all_zero_but(o, f, |target| target.phase = 0))),
    (
        "54 at the first block only",
        Wrong::WriteTargets(|output, frame| {
            written_with(output, frame, |index, target| match target {
                ALL_ZERO if index > 0 => EMPTY,
                _ => target,
            })
        }),
    ),
    (
        "54 at all blocks but the last",
        Wrong::WriteTargets(|output, frame| {
            written_with(output, frame, |index, target| match target {
                ALL_ZERO if index == 15 => EMPTY,
                _ => target,
            })
        }),
    ),
    (
        "54 is told as 50",
        Wrong::WriteTargets(|output, frame| match Reference.write_targets(output, frame) {
            right if right.refusal == 54 => refused(50),
            right => right,
        }),
    ),
    (
        "a frame refused with 54 is written",
        Wrong::WriteTargets(|output, frame| {
            let right = Reference.write_targets(output, frame);
            if right.refusal == 54 {
                written_with(output, frame, |_, target| empty_if(target == ALL_ZERO, target));
            }
            right
        }),
    ),
    (
        "a target that would be all `0` is written",
        Wrong::WriteTargets(|output, frame| {
            written_with(output, frame, |_, target| empty_if(target == ALL_ZERO, target))
        }),
    ),
    (
        "an empty block is written as value 0",
        Wrong::WriteTargets(|output, frame| {
            let right = Reference.write_targets(output, frame);
            if right.refusal == 0 {
                let empty = |index: &usize| frame.targets[*index].empty == 1;
                (0..16).filter(empty).for_each(|index| output[4 + 14 * index..][..14].fill(0));
            }
            right
        }),
    ),
    (
        "an empty block's reserved bytes stay as they were",
        Wrong::WriteTargets(|output, frame| {
            let before = output.to_vec();
            let right = Reference.write_targets(output, frame);
            if right.refusal == 0 && frame.targets[0].empty == 1 {
                output[14..18].copy_from_slice(&before[14..18]);
            }
            right
        }),
    ),
    (
        "the other fields of an empty block are tested",
        Wrong::WriteTargets(|output, frame| {
            let targets = frame.targets.map(|target| Target { empty: target.empty & !1, ..target });
            match Reference.write_targets(&mut [], TargetFrame { targets, ..frame }).refusal {
                50 => refused(50),
                _ => Reference.write_targets(output, frame),
            }
        }),
    ),
    (
        "the other fields of an empty block are written",
        Wrong::WriteTargets(|output, frame| {
            written_with(output, frame, |_, target| match target {
                Target { empty: 1, number: 0..=15, magnitude: 34..=254, .. } => Target { empty: 0, ..target },
                _ => target,
            })
        }),
    ),
    (
        "an empty value over 1 is 1",
        Wrong::WriteTargets(|o, f| written_with(o, f, |_, target| Target { empty: target.empty.min(1), ..target })),
    ),
    (
        "an empty value is its lowest bit",
        Wrong::WriteTargets(|o, f| written_with(o, f, |_, target| Target { empty: target.empty & 1, ..target })),
    ),
    (
        "an empty value over 1 is a target's",
        Wrong::WriteTargets(|o, f| {
            written_with(o, f, |_, target| Target { empty: u8::from(target.empty == 1), ..target })
        }),
    ),
    (
        "what stands behind an empty block is not tested",
        Wrong::WriteTargets(|output, frame| {
            let first = frame.targets.iter().position(|target| target.empty == 1).unwrap_or(16);
            match Reference.write_targets(output, frame) {
                right if right.refusal == 50 && first < 15 => {
                    let mut tested = frame;
                    tested.targets[first..].fill(EMPTY);
                    Reference.write_targets(output, tested)
                }
                right => right,
            }
        }),
    ),
    (
        "the accuracy is written in millimetres",
        Wrong::WriteStatus(|output, status| {
            Reference.write_status(output, StatusFrame { accuracy: status.accuracy_mm, ..status })
        }),
    ),
    (
        "a format of two digits is fine",
        Wrong::WriteStatus(|output, status| {
            Reference.write_status(output, StatusFrame { format: status.format % 16, ..status })
        }),
    ),
    (
        "hex digits are lower case",
        Wrong::WriteError(|output, flags| {
            let right = Reference.write_error(output, flags);
            if right.refusal == 0 {
                output[2..6].make_ascii_lowercase();
            }
            right
        }),
    ),
    (
        "a byte behind the frame is written",
        Wrong::WriteError(|output, flags| {
            let right = Reference.write_error(output, flags);
            if let Some(byte) = output.get_mut(8) {
                *byte = 0;
            }
            right
        }),
    ),
];

/// The edges find each of them without a seed.
#[test]
fn every_wrong_reader_is_found_at_the_edges() {
    for (run, readers) in [(COMMANDS, WRONG_COMMANDS), (WRITTEN_COMMANDS, WRONG_WRITTEN_COMMANDS)] {
        for (what, wrong) in readers {
            let found = (run.compare)(wrong, 1, 0).expect_err(what);
            assert!(found.to_string().contains("a fixed case"), "{what}: {found}");
        }
    }
    let slices = slices();
    let lists = [WRONG_PACKETS, WRONG_TYPES, WRONG_POINTS];
    for (what, wrong) in lists.concat().into_iter().chain(of_other_editions()) {
        assert!(slices.iter().any(|slice| check_throughout(&wrong, slice).is_err()), "{what}");
    }
}

/// In every function that takes an edition.
fn of_other_editions() -> impl Iterator<Item = (&'static str, Wrong)> {
    OTHER_EDITIONS.iter().map(|&(what, other)| (what, Wrong::Edition(other)))
}

#[test]
fn every_wrong_reader_is_found() {
    let others: Vec<_> = of_other_editions().collect();
    let lists = [
        (PACKETS, WRONG_PACKETS),
        (PACKETS, WRONG_TYPES),
        (PACKETS, WRONG_POINTS),
        (PACKETS, &others),
        (COMMANDS, WRONG_COMMANDS),
        (WRITTEN_COMMANDS, WRONG_WRITTEN_COMMANDS),
        (FRAMES, WRONG_FRAMES),
        (FRAMES, WRONG_STATUS),
        (FRAMES, &others),
        (WRITTEN_FRAMES, WRONG_WRITTEN_FRAMES),
    ];
    for (run, readers) in lists {
        for (what, wrong) in readers {
            let found = compare(&run, wrong).expect_err(what);
            assert!(found.to_string().contains("seed"), "{what}: {found}");
        }
    }
}
