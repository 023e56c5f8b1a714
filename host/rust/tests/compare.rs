//! The gateway library against the reader, and the comparison against readers that are wrong on purpose.
//!
//! The library is compared if `VQ_LIB_DIR` names the directory that holds the archives. `VQ_SEED` gives another first
//! seed than the usual one.

mod editions;
mod tags;

use editions::{is_wrong, Renaming, OTHER_EDITIONS};
use radar_reference::abi::{Centidegrees, Judgement, Millimetres, Reading, Reference, Subject, BAD, WAITING, WHOLE};
use radar_reference::compare::{
    check_capture, compare_centidegrees, compare_every_float, compare_judgements, compare_millimetres,
    compare_readings, compare_splits, first_seed, Difference, Tally,
};
use radar_reference::judgement;
use radar_reference::numbers::EDITIONS;
use radar_reference::packet_rules::{Lengths, Rules};
use radar_reference::reading::ROW;
use radar_reference::{mmwave, vital_signs};
use tags::{repeated, tags};

const JUDGEMENTS: u64 = 1_000_000;
const READINGS: u64 = 12_000;
const CONVERSIONS: u64 = 1_000_000;
const SPLIT_CAPTURES: u64 = 3000;
/// Of all floats, one in so many.
const STEP: usize = 1021;

/// Stops the test with the seed and the bytes.
fn agreed<T>(outcome: Result<T, Difference>) -> T {
    outcome.unwrap_or_else(|difference| panic!("{difference}"))
}

/// Every kind and reason came often enough to count, and every refusal came.
fn assert_all_judgements_seen(tally: &Tally) {
    assert!(tally.total >= JUDGEMENTS);
    for kind in [1, 2, 3, 4, 5, 6, 16, 17] {
        assert!(tally.of(&format!("whole {kind}")) >= 300, "{kind} in {tally}");
    }
    assert!(tally.of("waiting") >= 300, "{tally}");
    for reason in [10, 11, 12, 13, 14, 17, 20, 21, 22, 23, 24, 25, 26] {
        assert!(tally.of(&format!("bad {reason}")) >= 300, "{reason} in {tally}");
    }
    for refusal in 1..=3 {
        assert!(tally.of(&format!("refused {refusal}")) >= 10, "{refusal} in {tally}");
    }
}

fn assert_all_readings_seen(tally: &Tally) {
    assert!(tally.total >= READINGS);
    for answer in ["open, state 0", "open, state 1", "closed, state 1", "closed, state 2"] {
        assert!(tally.of(answer) >= 500, "{answer} in {tally}");
    }
    for answer in ["open, refused 1", "open, refused 3", "closed, refused 1", "closed, refused 3"] {
        assert!(tally.of(answer) >= 5, "{answer} in {tally}");
    }
}

/// All 256 bytes: 34 to 143, 144, 145 to 254, and the others.
fn assert_all_phases_seen(tally: &Tally) {
    let answers = ["below zero", "zero", "above zero", "refused 50"].map(|answer| tally.of(answer));
    assert_eq!(answers, [110, 1, 110, 35], "{tally}");
    assert_eq!(tally.total, 256);
}

#[cfg(gateway_linked)]
mod library {
    use super::*;
    use radar_reference::gateway::Gateway;

    #[test]
    fn judgements_agree() {
        let tally = agreed(compare_judgements(&Gateway, first_seed(), JUDGEMENTS));
        println!("judgements: {tally}");
        assert_all_judgements_seen(&tally);
    }

    #[test]
    fn readings_agree() {
        let tally = agreed(compare_readings(&Gateway, first_seed(), READINGS));
        println!("readings: {tally}");
        assert_all_readings_seen(&tally);
    }

    #[test]
    fn millimetres_agree() {
        let conversions = agreed(compare_millimetres(&Gateway, first_seed(), CONVERSIONS));
        println!("conversions: {conversions}");
    }

    #[test]
    fn some_of_all_floats_agree() {
        assert_every_float_agrees(STEP);
    }

    /// Run it with `cargo test --release --test compare -- --ignored`.
    #[test]
    #[ignore = "takes a minute or two"]
    fn every_float_agrees() {
        assert_every_float_agrees(1);
    }

    fn assert_every_float_agrees(step: usize) {
        let conversions = agreed(compare_every_float(&Gateway, step));
        println!("conversions: {conversions}");
        assert_eq!(conversions, 2 * (1u64 << 32).div_ceil(step as u64));
    }

    #[test]
    fn centidegrees_agree() {
        let tally = agreed(compare_centidegrees(&Gateway));
        println!("phases: {tally}");
        assert_all_phases_seen(&tally);
    }

    #[test]
    fn demand_3_holds_at_every_split() {
        let splits = agreed(compare_splits(&Gateway, first_seed(), SPLIT_CAPTURES));
        println!("splits: {splits}");
    }
}

// The runs themselves, on the reader and on readers that are wrong on purpose.

#[test]
fn the_judgements_that_are_compared_cover_all_answers() {
    let tally = agreed(compare_judgements(&Reference, first_seed(), JUDGEMENTS));
    println!("judgements: {tally}");
    assert_all_judgements_seen(&tally);
}

#[test]
fn the_readings_that_are_compared_cover_all_answers() {
    let tally = agreed(compare_readings(&Reference, first_seed(), READINGS));
    println!("readings: {tally}");
    assert_all_readings_seen(&tally);
}

#[test]
fn the_splits_that_are_compared_are_many() {
    let splits = agreed(compare_splits(&Reference, first_seed(), SPLIT_CAPTURES));
    println!("splits: {splits}");
    assert!(splits >= 10_000);
}

/// The millimetres by an edition, of a float's bits.
type Conversion = fn(u32, u32) -> Millimetres;
type Rounding = fn(f64) -> f64;
/// The centidegrees of the character so many steps behind 144.
type Phase = fn(i32) -> i32;

/// Whether no record of a type may stand behind records of these types.
type Exclusion = fn(u32, &[u32]) -> bool;

/// The reader with one function replaced.
#[derive(Clone, Copy)]
enum Wrong {
    Judge(fn(u32, &[u8]) -> Judgement),
    JudgeAt(fn(u32, &[u8], usize) -> Judgement),
    /// Vital signs by these rules.
    Rules(Rules),
    /// mmWave with this rule on which types a type may not stand behind.
    Excludes(Exclusion),
    Millimetres(Conversion),
    /// The same by this edition only.
    ByEdition(u32, Conversion),
    /// 1000 times the float rounded so by this edition, with the right refusals.
    Rounds(u32, Rounding),
    /// Another edition for the one named.
    Edition(Renaming),
    /// The phase so, with the right refusals.
    Phase(Phase),
    Centidegrees(fn(u8) -> Centidegrees),
    Read(fn(bool, u32, &[u8], &mut [u32]) -> Reading),
}

impl Subject for Wrong {
    fn judge(&self, dialect: u32, bytes: &[u8], place: usize) -> Judgement {
        let right = Reference.judge(dialect, bytes, place);
        match self {
            Wrong::Judge(judge) if right.refusal == 0 => judge(dialect, &bytes[place..]),
            Wrong::Rules(rules) if right.refusal == 0 && dialect == 2 => Ok(rules.judge(&bytes[place..])).into(),
            Wrong::Excludes(excluded) if right.refusal == 0 && dialect == 1 => with_types(&bytes[place..], *excluded),
            Wrong::JudgeAt(judge) => judge(dialect, bytes, place),
            _ => right,
        }
    }

    fn millimetres(&self, edition: u32, bits: u32) -> Millimetres {
        let right = Reference.millimetres(edition, bits);
        match self {
            Wrong::Millimetres(millimetres) => millimetres(edition, bits),
            Wrong::ByEdition(by, millimetres) if edition == *by => millimetres(edition, bits),
            Wrong::Rounds(by, round) if edition == *by && right.refusal == 0 => {
                Millimetres { refusal: 0, value: round(f64::from(f32::from_bits(bits)) * 1000.0) as i32 }
            }
            Wrong::Edition(other) => Reference.millimetres(other(edition), bits),
            _ => right,
        }
    }

    fn centidegrees(&self, character: u8) -> Centidegrees {
        let right = Reference.centidegrees(character);
        match self {
            Wrong::Phase(phase) if right.refusal == 0 => {
                Centidegrees { refusal: 0, value: phase(i32::from(character) - 144) }
            }
            Wrong::Centidegrees(centidegrees) => centidegrees(character),
            _ => right,
        }
    }

    fn open_reading(&self, dialect: u32, bytes: &[u8], table: &mut [u32]) -> Reading {
        match self {
            Wrong::Read(read) => read(false, dialect, bytes, table),
            _ => Reference.open_reading(dialect, bytes, table),
        }
    }

    fn closed_reading(&self, dialect: u32, bytes: &[u8], table: &mut [u32]) -> Reading {
        match self {
            Wrong::Read(read) => read(true, dialect, bytes, table),
            _ => Reference.closed_reading(dialect, bytes, table),
        }
    }
}

fn right(dialect: u32, bytes: &[u8]) -> Judgement {
    Reference.judge(dialect, bytes, 0)
}

fn bad(reason: u32) -> Judgement {
    Judgement { state: BAD, reason, ..Judgement::default() }
}

fn waiting() -> Judgement {
    Judgement { state: WAITING, ..Judgement::default() }
}

fn field(bytes: &[u8], place: usize) -> Option<u32> {
    Some(u32::from_le_bytes(bytes.get(place..place + 4)?.try_into().ok()?))
}

/// The judgement of SiRad bytes that are changed first.
fn sirad_with(dialect: u32, bytes: &[u8], change: fn(usize, u8) -> u8) -> Judgement {
    if dialect != 0 {
        return right(dialect, bytes);
    }
    let changed: Vec<u8> = bytes.iter().enumerate().map(|(place, &byte)| change(place, byte)).collect();
    right(dialect, &changed)
}

/// The judgement of mmWave bytes with another number in one field.
fn field_with(dialect: u32, bytes: &[u8], place: usize, change: fn(u32) -> u32) -> Judgement {
    let Some(number) = field(bytes, place).filter(|_| dialect == 1) else {
        return right(dialect, bytes);
    };
    let mut changed = bytes.to_vec();
    changed[place..place + 4].copy_from_slice(&change(number).to_le_bytes());
    right(dialect, &changed)
}

const WRONG_JUDGEMENTS: &[(&str, Wrong)] = &[
    ("all places wait", Wrong::Judge(|_, _| waiting())),
    ("all places are bad", Wrong::Judge(|dialect, _| bad(if dialect == 0 { 10 } else { 20 }))),
    ("lower-case hex is read", Wrong::Judge(|d, b| sirad_with(d, b, |_, byte| byte.to_ascii_uppercase()))),
    ("255 is a character", Wrong::Judge(|d, b| sirad_with(d, b, |_, byte| byte.min(254)))),
    (
        "33 is a character",
        Wrong::Judge(|d, b| sirad_with(d, b, |place, byte| if place > 1 && byte == b'!' { b'"' } else { byte })),
    ),
    ("34 is no character", Wrong::Judge(|d, b| sirad_with(d, b, |_, byte| if byte == 34 { 33 } else { byte }))),
    ("254 is no character", Wrong::Judge(|d, b| sirad_with(d, b, |_, byte| if byte == 254 { 255 } else { byte }))),
    (
        "a line feed stands for the carriage return",
        Wrong::Judge(|d, b| sirad_with(d, b, |_, byte| if byte == 10 { 13 } else { byte })),
    ),
    (
        "P and C are one kind",
        Wrong::Judge(|d, b| {
            let right = right(d, b);
            Judgement { kind: if right.kind == 3 { 2 } else { right.kind }, ..right }
        }),
    ),
    (
        "sizes end at 4096",
        Wrong::Judge(|d, b| match right(d, b) {
            right if right.kind < 4 && right.length > 4112 => bad(13),
            right => right,
        }),
    ),
    (
        "not a character is told as not a hex digit",
        Wrong::Judge(|d, b| match right(d, b) {
            right if right.reason == 13 => bad(12),
            right => right,
        }),
    ),
    (
        "the last byte of a frame is not waited for",
        Wrong::Judge(|d, b| {
            let longer = [b, &[10]].concat();
            match (right(d, b), right(d, &longer)) {
                (now, then) if now.state == WAITING && then.state == WHOLE => then,
                (now, _) => now,
            }
        }),
    ),
    (
        "a byte behind the frame is waited for",
        Wrong::Judge(|d, b| match right(d, b) {
            right if right.state == WHOLE && right.length == b.len() as u64 => waiting(),
            right => right,
        }),
    ),
    (
        "the header has 44 bytes",
        Wrong::Judge(|d, b| match d {
            1 if b.len() > 44 => right(d, &[&b[..40], &b[44..]].concat()),
            _ => right(d, b),
        }),
    ),
    (
        "a type is judged by its length field only",
        Wrong::Judge(|d, b| {
            let right = right(d, b);
            let seen = (0..=b.len()).find(|&end| Reference.judge(d, &b[..end], 0).reason == 23);
            match seen {
                Some(end) if right.reason == 23 && b.len() < end + 4 => waiting(),
                Some(_) if right.reason == 23 => bad(24),
                _ => right,
            }
        }),
    ),
    (
        "the magic waits for all of its bytes",
        Wrong::Judge(|d, b| match right(d, b) {
            right if right.reason == 20 && b.len() < 8 => waiting(),
            right => right,
        }),
    ),
    (
        "a total length is judged by its first byte",
        Wrong::Judge(|d, b| match right(d, b) {
            right if d == 1 && right.state == WAITING && (13..16).contains(&b.len()) && b[12] % 32 != 0 => bad(21),
            right => right,
        }),
    ),
    ("16N wraps around", Wrong::Judge(|d, b| field_with(d, b, 28, |objects| objects & 0x0FFF_FFFF))),
    ("4N wraps around", Wrong::Judge(|d, b| field_with(d, b, 28, |objects| objects & 0x3FFF_FFFF))),
    ("8K wraps around", Wrong::Judge(|d, b| field_with(d, b, 32, |count| count & 0x1FFF_FFFF))),
    (
        "a total of 32768 is too much",
        Wrong::Judge(|d, b| match field(b, 12) {
            Some(32_768) if d == 1 && right(d, b).reason != 20 => bad(21),
            _ => right(d, b),
        }),
    ),
    (
        "32 records are too many",
        Wrong::Judge(|d, b| match (right(d, b), field(b, 32)) {
            (right, Some(32)) if d == 1 && ![20, 21].contains(&right.reason) => bad(22),
            (right, _) => right,
        }),
    ),
    (
        "no records in a long packet are fine",
        Wrong::Judge(|d, b| match (right(d, b), field(b, 32)) {
            (right, Some(0)) if right.reason == 22 => waiting(),
            (right, _) => right,
        }),
    ),
    (
        "points without objects are fine",
        Wrong::Judge(|d, b| match (right(d, b), field(b, 28)) {
            (right, Some(0)) if right.reason == 23 => waiting(),
            (right, _) => right,
        }),
    ),
    ("type 7 is the statistics", Wrong::Judge(|d, b| field_with(d, b, 40, |kind| if kind == 7 { 6 } else { kind }))),
    ("type 5 is free", Wrong::Judge(|d, b| field_with(d, b, 40, |kind| if kind == 5 { 10 } else { kind }))),
    ("type 8 is free", Wrong::Judge(|d, b| field_with(d, b, 40, |kind| if kind == 8 { 10 } else { kind }))),
    (
        "the records end before the last byte",
        Wrong::Judge(|d, b| {
            let right = right(d, b);
            let total = field(b, 12).unwrap_or(0);
            match (field(b, 32), field(b, 44)) {
                (Some(1), Some(length)) if right.state == WHOLE && d == 1 && 48 + length == total => bad(24),
                _ => right,
            }
        }),
    ),
    (
        "padding of 32 bytes is fine",
        Wrong::Judge(|d, b| {
            let right = right(d, b);
            match (field(b, 12), field(b, 32), field(b, 44)) {
                (Some(total), Some(1), Some(length))
                    if right.reason == 24 && u64::from(length) + 80 == u64::from(total) =>
                {
                    waiting()
                }
                _ => right,
            }
        }),
    ),
    (
        "the end is refused",
        Wrong::JudgeAt(|d, b, place| match Reference.judge(d, b, place) {
            answer if answer.refusal == 0 && place == b.len() => Judgement { refusal: 2, ..Judgement::default() },
            answer => answer,
        }),
    ),
    (
        "2 goes before 3",
        Wrong::JudgeAt(|d, b, place| match Reference.judge(d, b, place) {
            answer if answer.refusal == 3 && place > b.len() => Judgement { refusal: 2, ..answer },
            answer => answer,
        }),
    ),
    (
        "3 goes before 1",
        Wrong::JudgeAt(|d, b, place| match Reference.judge(d, b, place) {
            answer if answer.refusal == 1 && b.len() > 1_048_576 => Judgement { refusal: 3, ..answer },
            answer => answer,
        }),
    ),
    (
        "a refusal has a state",
        Wrong::JudgeAt(|d, b, place| match Reference.judge(d, b, place) {
            answer if answer.refusal != 0 => Judgement { state: BAD, ..answer },
            answer => answer,
        }),
    ),
];

/// The rules of vital signs, of which each wrong reader has another one.
const RIGHT: Rules = vital_signs::RULES;

fn legal_lengths(record_type: u32) -> Lengths {
    vital_signs::legal_lengths(record_type)
}

/// The vital-signs judgement, with what becomes of it where it is told by this reason.
fn told_as(dialect: u32, bytes: &[u8], reason: u32, otherwise: fn(&[u8]) -> Judgement) -> Judgement {
    match right(dialect, bytes) {
        right if dialect == 2 && right.reason == reason => otherwise(bytes),
        right => right,
    }
}

/// The shortest front that is bad.
fn seen_at(dialect: u32, bytes: &[u8]) -> usize {
    (0..=bytes.len()).find(|&end| right(dialect, &bytes[..end]).state == BAD).expect("a bad place")
}

const WRONG_VITAL_SIGNS: &[(&str, Wrong)] = &[
    ("L 44 is legal", Wrong::Rules(Rules { is_legal_total: |l| l % 4 == 0 && (40..=32_768).contains(&l), ..RIGHT })),
    (
        "L 40 is not legal",
        Wrong::Rules(Rules { is_legal_total: |l| l % 4 == 0 && (48..=32_768).contains(&l), ..RIGHT }),
    ),
    (
        "L is even",
        Wrong::Rules(Rules { is_legal_total: |l| l % 2 == 0 && l != 44 && (40..=32_768).contains(&l), ..RIGHT }),
    ),
    (
        "L is a multiple of 8",
        Wrong::Rules(Rules { is_legal_total: |l| l % 8 == 0 && (40..=32_768).contains(&l), ..RIGHT }),
    ),
    ("L has mmWave's limits", Wrong::Rules(Rules { is_legal_total: mmwave::is_legal_total, ..RIGHT })),
    (
        "L 32768 is too much",
        Wrong::Rules(Rules { is_legal_total: |l| l != 32_768 && vital_signs::is_legal_total(l), ..RIGHT }),
    ),
    (
        "L 32772 is legal",
        Wrong::Rules(Rules { is_legal_total: |l| l == 32_772 || vital_signs::is_legal_total(l), ..RIGHT }),
    ),
    ("no records go with L 48", Wrong::Rules(Rules { empty_total: 48, ..RIGHT })),
    ("no records go with L 64", Wrong::Rules(Rules { empty_total: 64, ..RIGHT })),
    (
        "K 0 goes with any L",
        Wrong::Judge(|d, b| {
            told_as(d, b, 22, |b| {
                if field(b, 32) != Some(0) {
                    return bad(22);
                }
                let mut plain = b.to_vec();
                plain[12..16].copy_from_slice(&40u32.to_le_bytes());
                match right(2, &plain) {
                    whole if whole.state == WHOLE && (b.len() as u32) < field(b, 12).unwrap_or(0) => waiting(),
                    whole if whole.state == WHOLE => Judgement { length: field(b, 12).unwrap_or(0).into(), ..whole },
                    other => other,
                }
            })
        }),
    ),
    ("K 31 is the most", Wrong::Rules(Rules { most_records: 31, ..RIGHT })),
    ("K 33 is legal", Wrong::Rules(Rules { most_records: 33, ..RIGHT })),
    (
        "K 1 with L 40 is seen at the type",
        Wrong::Judge(|d, b| {
            told_as(d, b, 22, |b| match (field(b, 12), field(b, 32)) {
                (Some(40), Some(1)) if b.len() < 44 => waiting(),
                (Some(40), Some(1)) => bad(23),
                _ => bad(22),
            })
        }),
    ),
    ("98 stands for 99", Wrong::Rules(Rules { fixed: &[(28, 98), (36, 0)], ..RIGHT })),
    ("the number at 28 is free", Wrong::Rules(Rules { fixed: &[(36, 0)], ..RIGHT })),
    ("the subframe is free", Wrong::Rules(Rules { fixed: &[(28, 99)], ..RIGHT })),
    ("the subframe is 1", Wrong::Rules(Rules { fixed: &[(28, 99), (36, 1)], ..RIGHT })),
    (
        "99 has 24 bits",
        Wrong::Judge(|d, b| {
            told_as(d, b, 26, |b| {
                let mut changed = b.to_vec();
                changed[31] = 0;
                right(2, &changed)
            })
        }),
    ),
    (
        "the subframe has 8 bits",
        Wrong::Judge(|d, b| {
            told_as(d, b, 26, |b| match b.len() {
                40.. => {
                    let mut changed = b.to_vec();
                    changed[37..40].fill(0);
                    right(2, &changed)
                }
                _ => bad(26),
            })
        }),
    ),
    (
        "99 is checked with K",
        Wrong::Judge(|d, b| {
            told_as(d, b, 26, |b| match (field(b, 28), field(b, 12), field(b, 32)) {
                (Some(99), ..) => bad(26),
                (_, Some(total), Some(count)) if !RIGHT.is_legal_count(count.into(), total.into()) => bad(22),
                (.., Some(_)) => bad(26),
                _ => waiting(),
            })
        }),
    ),
    (
        "99 and the subframe are checked before K",
        Wrong::Judge(|d, b| match (right(d, b), field(b, 36)) {
            (right, Some(1..)) if d == 2 && right.reason == 22 => bad(26),
            (right, _) => right,
        }),
    ),
    (
        "99 is checked behind the header",
        Wrong::Judge(|d, b| told_as(d, b, 26, |b| if b.len() < 40 { waiting() } else { bad(26) })),
    ),
    ("a wrong fixed field is told as a count", Wrong::Judge(|d, b| told_as(d, b, 26, |_| bad(22)))),
    ("a wrong fixed field is told as a total", Wrong::Judge(|d, b| told_as(d, b, 26, |_| bad(21)))),
    (
        "a wrong subframe has a reason of its own",
        Wrong::Judge(|d, b| told_as(d, b, 26, |b| bad(if field(b, 28) == Some(99) { 25 } else { 26 }))),
    ),
    (
        "99 is judged by its first byte",
        Wrong::Judge(|d, b| match right(d, b) {
            right if d == 2 && right.state == WAITING && (29..32).contains(&b.len()) && b[28] != 99 => bad(26),
            right => right,
        }),
    ),
    (
        "L is judged by its first byte",
        Wrong::Judge(|d, b| match right(d, b) {
            right if d == 2 && right.state == WAITING && (13..16).contains(&b.len()) && b[12] % 4 != 0 => bad(21),
            right => right,
        }),
    ),
    ("padding up to a multiple of 32 is fine", Wrong::Rules(Rules { block: 32, ..RIGHT })),
    ("padding of 4 bytes is fine", Wrong::Rules(Rules { block: 5, ..RIGHT })),
    ("the records may end anywhere before L", Wrong::Rules(Rules { block: 1 << 20, ..RIGHT })),
    (
        "type 5 is legal",
        Wrong::Rules(Rules {
            lengths: |t, _| if t == 5 { Lengths::MultiplesOf(2) } else { legal_lengths(t) },
            ..RIGHT
        }),
    ),
    (
        "type 0 is legal",
        Wrong::Rules(Rules {
            lengths: |t, _| if t == 0 { Lengths::MultiplesOf(4) } else { legal_lengths(t) },
            ..RIGHT
        }),
    ),
    (
        "other types are free",
        Wrong::Rules(Rules { lengths: |t, _| if t > 4 { Lengths::MultiplesOf(1) } else { legal_lengths(t) }, ..RIGHT }),
    ),
    ("a type has 8 bits", Wrong::Rules(Rules { lengths: |t, _| legal_lengths(t & 255), ..RIGHT })),
    ("a type has 24 bits", Wrong::Rules(Rules { lengths: |t, _| legal_lengths(t & 0x00FF_FFFF), ..RIGHT })),
    ("types have mmWave's lengths", Wrong::Rules(Rules { lengths: mmwave::legal_lengths, ..RIGHT })),
    (
        "type 1 has 20 bytes",
        Wrong::Rules(Rules { lengths: |t, _| if t == 1 { Lengths::Only(20) } else { legal_lengths(t) }, ..RIGHT }),
    ),
    (
        "type 1 is a multiple of 24",
        Wrong::Rules(Rules {
            lengths: |t, _| if t == 1 { Lengths::MultiplesOf(24) } else { legal_lengths(t) },
            ..RIGHT
        }),
    ),
    (
        "type 4 has 24 bytes",
        Wrong::Rules(Rules { lengths: |t, _| if t == 4 { Lengths::Only(24) } else { legal_lengths(t) }, ..RIGHT }),
    ),
    (
        "type 4 is a multiple of 4",
        Wrong::Rules(Rules {
            lengths: |t, _| if t == 4 { Lengths::MultiplesOf(4) } else { legal_lengths(t) },
            ..RIGHT
        }),
    ),
    (
        "type 2 goes by twos",
        Wrong::Rules(Rules {
            lengths: |t, _| if t == 2 { Lengths::MultiplesOf(2) } else { legal_lengths(t) },
            ..RIGHT
        }),
    ),
    (
        "type 2 goes by eights",
        Wrong::Rules(Rules {
            lengths: |t, _| if t == 2 { Lengths::MultiplesOf(8) } else { legal_lengths(t) },
            ..RIGHT
        }),
    ),
    (
        "type 3 goes by fours",
        Wrong::Rules(Rules {
            lengths: |t, _| if t == 3 { Lengths::MultiplesOf(4) } else { legal_lengths(t) },
            ..RIGHT
        }),
    ),
    (
        "type 3 goes by eights",
        Wrong::Rules(Rules {
            lengths: |t, _| if t == 3 { Lengths::MultiplesOf(8) } else { legal_lengths(t) },
            ..RIGHT
        }),
    ),
    (
        "an empty payload is not legal",
        Wrong::Judge(|d, b| match (right(d, b), field(b, 44)) {
            (right, Some(0)) if d == 2 && right.state == WHOLE && right.length > 40 => bad(24),
            (right, _) => right,
        }),
    ),
    (
        "a type that can't fit waits for its length",
        Wrong::Judge(|d, b| told_as(d, b, 23, |b| if b.len() < seen_at(2, b) + 4 { waiting() } else { bad(24) })),
    ),
    (
        "a last type 3 that leaves a rest waits",
        Wrong::Judge(|d, b| {
            told_as(d, b, 23, |b| match b.len() - seen_at(2, b) {
                ..4 if b[seen_at(2, b) - 4..seen_at(2, b)] == [3, 0, 0, 0] => waiting(),
                _ => bad(23),
            })
        }),
    ),
    (
        "a length that leaves no room waits for the rest",
        Wrong::Judge(|d, b| told_as(d, b, 24, |b| if b.len() < seen_at(2, b) + 4 { waiting() } else { bad(24) })),
    ),
    ("a wrong length is told as a type", Wrong::Judge(|d, b| told_as(d, b, 24, |_| bad(23)))),
    ("the kind is 16", Wrong::Rules(Rules { kind: 16, ..RIGHT })),
    ("vital signs are judged as mmWave", Wrong::Rules(mmwave::RULES)),
    ("mmWave is judged as vital signs", Wrong::Judge(|d, b| right(if d == 1 { 2 } else { d }, b))),
    (
        "mmWave has no 99 objects",
        Wrong::Judge(|d, b| match (right(d, b), field(b, 28)) {
            (right, Some(99)) if right.kind == 16 => bad(26),
            (right, _) => right,
        }),
    ),
    (
        "the header has 44 bytes",
        Wrong::Judge(|d, b| match d {
            2 if b.len() > 44 => right(d, &[&b[..40], &b[44..]].concat()),
            _ => right(d, b),
        }),
    ),
    (
        "the last byte is not waited for",
        Wrong::Judge(|d, b| {
            let longer = [b, &[0]].concat();
            match (right(d, b), right(d, &longer)) {
                (now, then) if d == 2 && now.state == WAITING && then.state == WHOLE => then,
                (now, _) => now,
            }
        }),
    ),
    (
        "dialect 2 is refused",
        Wrong::JudgeAt(|d, b, place| match d {
            2 => Judgement { refusal: judgement::judge(3, b, place).err().unwrap_or(0), ..Judgement::default() },
            _ => Reference.judge(d, b, place),
        }),
    ),
    ("dialect 3 is read", Wrong::JudgeAt(|d, b, place| Reference.judge(if d == 3 { 2 } else { d }, b, place))),
    ("a dialect has 8 bits", Wrong::JudgeAt(|d, b, place| Reference.judge(d & 255, b, place))),
];

/// The judgement of a T frame of which each block, the last cut off perhaps, is changed first.
fn blocks_with(dialect: u32, bytes: &[u8], change: fn(&mut [u8])) -> Judgement {
    let mut changed = bytes.to_vec();
    if dialect == 0 && bytes.starts_with(b"!T") {
        let end = changed.len().clamp(4, 228);
        changed.get_mut(4..end).unwrap_or_default().chunks_mut(14).for_each(change);
    }
    right(dialect, &changed)
}

/// Puts a `0` for each byte 0 in this part of a block that is not of value 0.
fn forgive(block: &mut [u8], part: std::ops::Range<usize>) {
    let skipped = if block[0] == 0 { block.len() } else { part.start };
    block.iter_mut().take(part.end).skip(skipped).filter(|byte| **byte == 0).for_each(|byte| *byte = b'0');
}

/// The judgement of a T frame with this byte for a byte 0 at a place outside its blocks.
fn for_byte_0(dialect: u32, bytes: &[u8], place: usize, other: u8) -> Judgement {
    let mut changed = bytes.to_vec();
    match changed.get_mut(place) {
        Some(byte) if dialect == 0 && bytes.starts_with(b"!T") && *byte == 0 => *byte = other,
        _ => (),
    }
    right(dialect, &changed)
}

/// The judgement, but this reason for a whole T frame of which some block and the one behind it (none behind the last) are
/// such.
fn bad_with(dialect: u32, bytes: &[u8], reason: u32, such: fn(&[u8], &[u8]) -> bool) -> Judgement {
    match right(dialect, bytes) {
        right if right.kind == 4 => {
            let blocks: Vec<&[u8]> = bytes[4..228].chunks(14).chain([&[][..]]).collect();
            let found = blocks.windows(2).any(|pair| such(pair[0], pair[1]));
            if found {
                bad(reason)
            } else {
                right
            }
        }
        right => right,
    }
}

/// What becomes of bytes that are bad for this reason; the second number is the place of the byte where it is seen.
fn seen_as(dialect: u32, bytes: &[u8], reason: u32, otherwise: fn(&[u8], usize) -> Judgement) -> Judgement {
    match right(dialect, bytes) {
        right if right.reason == reason => otherwise(bytes, seen_at(dialect, bytes) - 1),
        right => right,
    }
}

const WRONG_EMPTY_BLOCKS: &[(&str, Wrong)] = &[
    (
        "a block of value 0 is refused with 12",
        Wrong::Judge(|d, b| blocks_with(d, b, |block| block[0] = if block[0] == 0 { b'G' } else { block[0] })),
    ),
    ("a broken block is told as not a hex digit", Wrong::Judge(|d, b| seen_as(d, b, 17, |_, _| bad(12)))),
    ("a broken block is told as not a character", Wrong::Judge(|d, b| seen_as(d, b, 17, |_, _| bad(13)))),
    (
        "a broken block is told by the field of its byte",
        Wrong::Judge(|d, b| {
            seen_as(d, b, 17, |_, place| bad(if b"xxxxxcxxxxcccc"[(place - 4) % 14] == b'x' { 12 } else { 13 }))
        }),
    ),
    (
        "a broken block is seen at its end",
        Wrong::Judge(|d, b| {
            seen_as(d, b, 17, |b, at| if b.len() < 4 + (at - 4).next_multiple_of(14) { waiting() } else { bad(17) })
        }),
    ),
    (
        "a first byte 0 alone makes a block empty",
        Wrong::Judge(|d, b| {
            blocks_with(d, b, |block| {
                if block[0] == 0 {
                    block.fill(0)
                }
            })
        }),
    ),
    (
        "thirteen bytes of value 0 are enough",
        Wrong::Judge(|d, b| {
            blocks_with(d, b, |block| {
                if block[0] == 0 {
                    block.iter_mut().skip(13).for_each(|byte| *byte = 0);
                }
            })
        }),
    ),
    (
        "ten bytes of value 0 and four characters are an empty block",
        Wrong::Judge(|d, b| {
            blocks_with(d, b, |block| {
                if block.starts_with(&[0; 10]) {
                    block[10..].iter_mut().filter(|byte| (34..255).contains(*byte)).for_each(|byte| *byte = 0);
                }
            })
        }),
    ),
    (
        "bytes 0 and `0` may be mixed in an empty block",
        Wrong::Judge(|d, b| {
            blocks_with(d, b, |block| {
                if block.iter().all(|byte| [0, b'0'].contains(byte)) {
                    block.fill(b'0')
                }
            })
        }),
    ),
    ("a byte 0 is fine in any byte of a target", Wrong::Judge(|d, b| blocks_with(d, b, |block| forgive(block, 1..14)))),
    ("a byte 0 is fine as magnitude", Wrong::Judge(|d, b| blocks_with(d, b, |block| forgive(block, 5..6)))),
    ("a byte 0 is fine as reserved byte", Wrong::Judge(|d, b| blocks_with(d, b, |block| forgive(block, 10..14)))),
    (
        "a byte 0 in a target is told as 17",
        Wrong::Judge(|d, b| match right(d, b) {
            right if d == 0 && [12, 13].contains(&right.reason) && b.starts_with(b"!T") => {
                let place = seen_at(d, b) - 1;
                bad(if place > 3 && b[place] == 0 { 17 } else { right.reason })
            }
            right => right,
        }),
    ),
    ("a format of value 0 is fine", Wrong::Judge(|d, b| for_byte_0(d, b, 2, b'0'))),
    ("a gain of value 0 is fine", Wrong::Judge(|d, b| for_byte_0(d, b, 3, b'0'))),
    ("a carriage return of value 0 is fine", Wrong::Judge(|d, b| for_byte_0(d, b, 228, 13))),
    ("a line feed of value 0 is fine", Wrong::Judge(|d, b| for_byte_0(d, b, 229, 10))),
    (
        "the first block is a target",
        Wrong::Judge(|d, b| match b {
            [b'!', b'T', _, _, 0, ..] if d == 0 && ![12, 13].contains(&right(d, &b[..4]).reason) => bad(12),
            _ => right(d, b),
        }),
    ),
    (
        "the last block is a target",
        Wrong::Judge(|d, b| bad_with(d, b, 12, |block, next| block[0] == 0 && next.is_empty())),
    ),
    (
        "no target stands behind a block of value 0",
        Wrong::Judge(|d, b| {
            bad_with(d, b, 17, |block, next| block[0] == 0 && next.first().is_some_and(|&byte| byte != 0))
        }),
    ),
    (
        "the two forms do not go together",
        Wrong::Judge(|d, b| {
            bad_with(d, b, 17, |block, next| block.starts_with(&[b'0'; 10]) && next.first() == Some(&0))
        }),
    ),
    ("a block of `0` is refused", Wrong::Judge(|d, b| bad_with(d, b, 17, |block, _| block == [b'0'; 14]))),
    (
        "an empty block has `0` as reserved bytes",
        Wrong::Judge(|d, b| bad_with(d, b, 13, |block, _| block.starts_with(&[b'0'; 10]) && block != [b'0'; 14])),
    ),
    (
        "the reserved bytes of an empty block are free",
        Wrong::Judge(|d, b| {
            blocks_with(d, b, |block| {
                if block.starts_with(&[b'0'; 10]) {
                    block.fill(b'0')
                }
            })
        }),
    ),
    (
        "sixteen blocks of value 0 are no frame",
        Wrong::Judge(|d, b| match right(d, b) {
            right if right.kind == 4 && b[4..228] == [0; 224] => bad(17),
            right => right,
        }),
    ),
];

/// The judgement of mmWave bytes with this rule on types.
fn with_types(bytes: &[u8], is_excluded: Exclusion) -> Judgement {
    Ok(Rules { is_excluded, ..mmwave::RULES }.judge(bytes)).into()
}

/// The judgement of mmWave bytes of which any type may come again.
fn with_any_types(bytes: &[u8]) -> Judgement {
    with_types(bytes, |_, _| false)
}

fn excluded(record_type: u32, before: &[u32]) -> bool {
    mmwave::is_excluded(record_type, before)
}

/// This type is not asked for.
fn but_for<const TYPE: u32>(record_type: u32, before: &[u32]) -> bool {
    record_type != TYPE && excluded(record_type, before)
}

/// This type is refused, too, if it comes again.
fn also<const TYPE: u32>(record_type: u32, before: &[u32]) -> bool {
    record_type == TYPE && before.contains(&TYPE) || excluded(record_type, before)
}

/// Only these bits of a type are looked at.
fn masked<const BITS: u32>(record_type: u32, before: &[u32]) -> bool {
    excluded(record_type & BITS, &before.iter().map(|other| other & BITS).collect::<Vec<_>>())
}

/// The types of a packet's records.
fn types_of(packet: &[u8]) -> Vec<u32> {
    tags(packet).into_iter().map(|(_, tag)| tag).collect()
}

/// Whether some of the types may not stand behind those before it.
fn any_excluded(types: &[u32]) -> bool {
    (0..types.len()).any(|index| excluded(types[index], &types[..index]))
}

const WRONG_TYPES: &[(&str, Wrong)] = &[
    ("any type may come again", Wrong::Excludes(|_, _| false)),
    ("1 may come again", Wrong::Excludes(but_for::<1>)),
    ("2 may come again", Wrong::Excludes(but_for::<2>)),
    ("3 may come again", Wrong::Excludes(but_for::<3>)),
    ("5 may come again", Wrong::Excludes(but_for::<5>)),
    ("6 may come again", Wrong::Excludes(but_for::<6>)),
    ("7 may come again", Wrong::Excludes(but_for::<7>)),
    ("9 may come again", Wrong::Excludes(but_for::<9>)),
    ("4 may come again", Wrong::Excludes(|t, before| if t == 4 { before.contains(&8) } else { excluded(t, before) })),
    ("8 may come again", Wrong::Excludes(|t, before| if t == 8 { before.contains(&4) } else { excluded(t, before) })),
    ("4 and 8 go together", Wrong::Excludes(|t, before| mmwave::is_known(t) && before.contains(&t))),
    (
        "4 may stand behind 8",
        Wrong::Excludes(|t, before| if t == 4 { before.contains(&4) } else { excluded(t, before) }),
    ),
    (
        "8 may stand behind 4",
        Wrong::Excludes(|t, before| if t == 8 { before.contains(&8) } else { excluded(t, before) }),
    ),
    (
        "4 and 8 are refused side by side only",
        Wrong::Excludes(|t, before| match (t, before.last()) {
            (4 | 8, Some(4 | 8)) => true,
            _ => mmwave::is_known(t) && before.contains(&t),
        }),
    ),
    ("5 and 8 do not go together", Wrong::Excludes(|t, before| excluded(t, before) || t == 8 && before.contains(&5))),
    ("1 alone may not come again", Wrong::Excludes(|t, before| t == 1 && before.contains(&1))),
    ("0 may not come again", Wrong::Excludes(also::<0>)),
    ("10 may not come again", Wrong::Excludes(also::<10>)),
    ("all bits may not come again", Wrong::Excludes(also::<{ u32::MAX }>)),
    ("no type may come again", Wrong::Excludes(|t, before| excluded(t, before) || before.contains(&t))),
    ("a type has 4 bits", Wrong::Excludes(masked::<0xF>)),
    ("a type has 5 bits", Wrong::Excludes(masked::<0x1F>)),
    ("a type has 8 bits", Wrong::Excludes(masked::<0xFF>)),
    ("a type has 16 bits", Wrong::Excludes(masked::<0xFFFF>)),
    ("a type has 24 bits", Wrong::Excludes(masked::<0x00FF_FFFF>)),
    ("a type has 31 bits", Wrong::Excludes(masked::<0x7FFF_FFFF>)),
    (
        "only the record right before counts",
        Wrong::Excludes(|t, before| excluded(t, &before[before.len().saturating_sub(1)..])),
    ),
    ("only the first record counts", Wrong::Excludes(|t, before| excluded(t, &before[..before.len().min(1)]))),
    ("the first record does not count", Wrong::Excludes(|t, before| excluded(t, &before[before.len().min(1)..]))),
    ("only the first eight records count", Wrong::Excludes(|t, before| excluded(t, &before[..before.len().min(8)]))),
    (
        "only the last eight records count",
        Wrong::Excludes(|t, before| excluded(t, &before[before.len().saturating_sub(8)..])),
    ),
    (
        "the last record may be of any type",
        Wrong::Judge(|d, b| {
            seen_as(d, b, 25, |b, place| match types_of(&b[..=place]).len() as u32 {
                all if field(b, 32) == Some(all) => with_any_types(b),
                _ => bad(25),
            })
        }),
    ),
    ("a repeated type is told as one that can't fit", Wrong::Judge(|d, b| seen_as(d, b, 25, |_, _| bad(23)))),
    ("a repeated type is told as a wrong length", Wrong::Judge(|d, b| seen_as(d, b, 25, |_, _| bad(24)))),
    ("a repeated type is told as a fixed field", Wrong::Judge(|d, b| seen_as(d, b, 25, |_, _| bad(26)))),
    (
        "23 goes before 25",
        Wrong::Judge(|d, b| {
            seen_as(d, b, 25, |b, place| match with_any_types(&b[..=place]) {
                other if other.reason == 23 => other,
                _ => bad(25),
            })
        }),
    ),
    (
        "24 goes before 25",
        Wrong::Judge(|d, b| {
            seen_as(d, b, 25, |b, place| match with_any_types(&b[..b.len().min(place + 5)]) {
                other if other.reason == 24 => other,
                _ => bad(25),
            })
        }),
    ),
    (
        "a repeated type is seen at its length",
        Wrong::Judge(|d, b| seen_as(d, b, 25, |b, place| if b.len() < place + 5 { waiting() } else { bad(25) })),
    ),
    (
        "a repeated type is seen at the packet's end",
        Wrong::Judge(|d, b| {
            seen_as(d, b, 25, |b, _| match with_any_types(b) {
                other if other.state == WHOLE => bad(25),
                other => other,
            })
        }),
    ),
    (
        "a repeated type is seen at its first byte",
        Wrong::Judge(|d, b| {
            let right_then = |more: usize| right(d, &[b, &[0; 3][..more]].concat());
            match right(d, b) {
                now if d == 1 && now.state == WAITING && (1..=3).any(|more| right_then(more).reason == 25) => bad(25),
                now => now,
            }
        }),
    ),
    (
        "25 goes before 24 of a record before",
        Wrong::Judge(|d, b| match right(d, b) {
            right if d == 1 && right.reason == 24 && !repeated(b, excluded).is_empty() => bad(25),
            right => right,
        }),
    ),
    (
        "25 goes before 22",
        Wrong::Judge(|d, b| match right(d, b) {
            right if d == 1 && right.reason == 22 && !repeated(b, excluded).is_empty() => bad(25),
            right => right,
        }),
    ),
    (
        "the types of the packet before count",
        Wrong::JudgeAt(|d, b, place| {
            let answer = Reference.judge(d, b, place);
            if answer.kind != 16 {
                return answer;
            }
            let starts = (64..=512).step_by(32).filter_map(|length| place.checked_sub(length));
            let packet =
                starts.map(|start| &b[start..place]).find(|packet| right(d, packet).length == packet.len() as u64);
            match packet {
                Some(packet) if any_excluded(&[types_of(packet), types_of(&b[place..])].concat()) => bad(25),
                _ => answer,
            }
        }),
    ),
    ("a type of vital signs comes once", Wrong::Rules(Rules { is_excluded: mmwave::is_excluded, ..RIGHT })),
    (
        "type 1 of vital signs comes once",
        Wrong::Rules(Rules { is_excluded: |t, before| t == 1 && before.contains(&1), ..RIGHT }),
    ),
    (
        "type 4 of vital signs comes once",
        Wrong::Rules(Rules { is_excluded: |t, before| t == 4 && before.contains(&4), ..RIGHT }),
    ),
];

#[test]
fn wrong_judgements_are_found() {
    let lists = [WRONG_JUDGEMENTS, WRONG_VITAL_SIGNS, WRONG_EMPTY_BLOCKS, WRONG_TYPES];
    for (name, wrong) in lists.into_iter().flatten() {
        let found = compare_judgements(wrong, first_seed(), JUDGEMENTS);
        assert!(found.is_err(), "not found: {name}");
    }
    // What those on types are made of is right.
    for part in [Wrong::Excludes(excluded), Wrong::Excludes(but_for::<10>), Wrong::Excludes(masked::<{ u32::MAX }>)] {
        agreed(compare_judgements(&part, first_seed(), JUDGEMENTS / 10));
    }
}

#[test]
fn a_difference_tells_its_seed_and_bytes_and_comes_again() {
    let (_, wrong) = WRONG_JUDGEMENTS[2];
    let difference = compare_judgements(&wrong, first_seed(), JUDGEMENTS).unwrap_err();
    let told = difference.to_string();
    assert!(told.contains("seed ") && told.contains("cargo run --bin capture"), "{told}");
    assert!(told.contains(&format!("{} bytes: {:02x}", difference.bytes.len(), difference.bytes[0])), "{told}");
    assert!(check_capture(&wrong, 0, &difference.bytes).is_err());
    assert!(check_capture(&Reference, 0, &difference.bytes).is_ok());
}

fn to_odd(value: f64) -> f64 {
    let below = value.floor();
    match value - below == 0.5 {
        true if below % 2.0 == 0.0 => below + 1.0,
        true => below,
        false => value.round(),
    }
}

/// What is near a half is made one.
fn half_if_near(value: f64) -> f64 {
    let half = value.floor() + 0.5;
    if (value - half).abs() < 1e-3 {
        half
    } else {
        value
    }
}

/// The product as a float of 32 bits.
fn short(value: f64) -> f64 {
    f64::from((value / 1000.0) as f32 * 1000.0)
}

/// 1000 times the float without its last bit.
fn without_last_bit(value: f64) -> f64 {
    1000.0 * f64::from(f32::from_bits(((value / 1000.0) as f32).to_bits() & !1))
}

/// The wrong roundings and the editions in which they are wrong.
const WRONG_ROUNDINGS: &[(&str, &[u32], Rounding)] = &[
    ("halves to even", &[1], f64::round_ties_even),
    ("halves away from zero", &[2], f64::round),
    ("halves up", &EDITIONS, |value| (value + 0.5).floor()),
    ("halves down", &EDITIONS, |value| (value - 0.5).ceil()),
    ("halves towards zero", &EDITIONS, |value| (value.abs() - 0.5).ceil().copysign(value)),
    ("halves to odd", &EDITIONS, to_odd),
    ("to even above zero, away below", &EDITIONS, |v| if v > 0.0 { v.round_ties_even() } else { v.round() }),
    ("to even below zero, away above", &EDITIONS, |v| if v < 0.0 { v.round_ties_even() } else { v.round() }),
    ("to even below 1 m, away beyond", &EDITIONS, |v| if v.abs() < 1e3 { v.round_ties_even() } else { v.round() }),
    ("to even from 1 m on, away before", &EDITIONS, |v| if v.abs() < 1e3 { v.round() } else { v.round_ties_even() }),
    ("the last halves away", &[2], |v| if v.abs() < 999_800.0 { v.round_ties_even() } else { v.round() }),
    ("the last halves to even", &[1], |v| if v.abs() < 999_800.0 { v.round() } else { v.round_ties_even() }),
    ("truncated", &EDITIONS, f64::trunc),
    ("whatever is over a half to even", &[2], |value| {
        let whole = value.abs().trunc();
        (if value.abs() - whole < 0.5 { whole } else { whole + whole % 2.0 }).copysign(value)
    }),
    ("multiplied as a short float", &EDITIONS, |value| short(value).round()),
    ("multiplied as a short float, halves to even", &EDITIONS, |value| short(value).round_ties_even()),
    ("near a half is one", &[1], |value| half_if_near(value).round()),
    ("near a half is one, to even", &[2], |value| half_if_near(value).round_ties_even()),
    ("tenths first", &[1], |value| ((value * 10.0).round() / 10.0).round()),
    ("tenths first, halves to even", &[2], |value| ((value * 10.0).round() / 10.0).round_ties_even()),
    ("the float's last bit is lost", &[1], |value| without_last_bit(value).round()),
    ("the float's last bit is lost, halves to even", &[2], |value| without_last_bit(value).round_ties_even()),
];

/// Wrong by one edition or by the other.
const WRONG_MILLIMETRES: &[(&str, Conversion)] = &[
    ("the limit is refused", |edition, bits| match Reference.millimetres(edition, bits) {
        right if right.value.abs() == 1_000_000 => Millimetres { refusal: 31, value: 0 },
        right => right,
    }),
    ("the limit is on the rounded value", |edition, bits| {
        match (Reference.millimetres(edition, bits), f32::from_bits(bits)) {
            (right, value) if right.refusal == 31 && value.abs() < 1000.0004 => {
                Millimetres { refusal: 0, value: 1_000_000_f32.copysign(value) as i32 }
            }
            (right, _) => right,
        }
    }),
    ("infinite is too far", |edition, bits| match Reference.millimetres(edition, bits) {
        right if f32::from_bits(bits).is_infinite() => Millimetres { refusal: 31, ..right },
        right => right,
    }),
    ("the sign is lost", |edition, bits| {
        let right = Reference.millimetres(edition, bits);
        Millimetres { value: right.value.abs(), ..right }
    }),
    ("short numbers are refused", |edition, bits| match f32::from_bits(bits) {
        value if value.is_subnormal() => Millimetres { refusal: 30, value: 0 },
        _ => Reference.millimetres(edition, bits),
    }),
    ("a refused float leaves a value", |edition, bits| match Reference.millimetres(edition, bits) {
        right if right.refusal != 0 => Millimetres { value: 1_000_000, ..right },
        right => right,
    }),
];

/// What edition 1 answers, if the edition is none and the answer is such.
fn by_edition_1(edition: u32, bits: u32, if_such: fn(Millimetres) -> bool) -> Millimetres {
    match Reference.millimetres(1, bits) {
        answer if is_wrong(edition) && if_such(answer) => answer,
        _ => Reference.millimetres(edition, bits),
    }
}

const WRONG_EDITIONS: &[(&str, Wrong)] = &[
    ("30 goes before 32", Wrong::Millimetres(|e, bits| by_edition_1(e, bits, |answer| answer.refusal == 30))),
    ("31 goes before 32", Wrong::Millimetres(|e, bits| by_edition_1(e, bits, |answer| answer.refusal == 31))),
    (
        "0 is 0 by any edition",
        Wrong::Millimetres(|e, bits| by_edition_1(e, bits, |answer| answer == Millimetres::default())),
    ),
    (
        "an edition is refused only at a half",
        Wrong::Millimetres(|edition, bits| match EDITIONS.map(|edition| Reference.millimetres(edition, bits)) {
            [first, second] if is_wrong(edition) && first == second => first,
            _ => Reference.millimetres(edition, bits),
        }),
    ),
    (
        "32 leaves the value",
        Wrong::Millimetres(|edition, bits| match Reference.millimetres(edition, bits) {
            right if right.refusal == 32 => Millimetres { refusal: 32, ..Reference.millimetres(1, bits) },
            right => right,
        }),
    ),
    (
        "32 is told as 30",
        Wrong::Millimetres(|edition, bits| match Reference.millimetres(edition, bits) {
            right if right.refusal == 32 => Millimetres { refusal: 30, ..right },
            right => right,
        }),
    ),
];

#[test]
fn wrong_millimetres_are_found() {
    let assert_found = |name: &str, wrong: Wrong| {
        let found = compare_millimetres(&wrong, first_seed(), CONVERSIONS);
        assert!(found.is_err(), "not found: {name}");
    };
    for &(name, editions, round) in WRONG_ROUNDINGS {
        editions.iter().for_each(|&edition| assert_found(name, Wrong::Rounds(edition, round)));
    }
    for &(name, millimetres) in WRONG_MILLIMETRES {
        EDITIONS.iter().for_each(|&edition| assert_found(name, Wrong::ByEdition(edition, millimetres)));
    }
    for &(name, other) in OTHER_EDITIONS {
        assert_found(name, Wrong::Edition(other));
    }
    for &(name, wrong) in WRONG_EDITIONS {
        assert_found(name, wrong);
    }
    let conversions = agreed(compare_millimetres(&Reference, first_seed(), CONVERSIONS));
    println!("conversions: {conversions}");
    assert!(conversions >= CONVERSIONS);
}

#[test]
fn wrong_millimetres_are_found_among_all_floats() {
    for edition in EDITIONS {
        let found = compare_every_float(&Wrong::Rounds(edition, f64::trunc), STEP);
        assert!(found.is_err(), "not found: truncated by edition {edition}");
    }
}

/// The exact phase in hundredths of a degree.
fn exact_phase(steps: i32) -> f64 {
    f64::from(1800 * steps) / 11.0
}

fn right_phase(steps: i32) -> i32 {
    exact_phase(steps).round() as i32
}

/// The phase half a turn on by parts of a hundredth, so many bits of them, without the half turn.
fn turned(bits: u32, step: i32, steps: i32) -> i32 {
    ((step * (steps + 110) + (1 << (bits - 1))) >> bits) - 18_000
}

/// A multiplication and a shift are right with 41,891 / 256, and half a turn on with 335,127 / 2048.
const WRONG_PHASES: &[(&str, Phase)] = &[
    ("truncated", |steps| exact_phase(steps) as i32),
    ("rounded down", |steps| exact_phase(steps).floor() as i32),
    ("rounded up", |steps| exact_phase(steps).ceil() as i32),
    ("a half is added below zero too", |steps| (3600 * steps + 11) / 22),
    ("145 is zero", |steps| right_phase(steps - 1)),
    ("143 is zero", |steps| right_phase(steps + 1)),
    ("the sign is turned", |steps| -right_phase(steps)),
    ("the sign is lost", |steps| right_phase(steps).abs()),
    ("254 is -180 degrees", |steps| if steps == 110 { -18_000 } else { right_phase(steps) }),
    ("tenths of a degree", |steps| 10 * (exact_phase(steps) / 10.0).round() as i32),
    ("a step of 7 bits", |steps| (20_945 * steps + 64) >> 7),
    ("a step that is too small", |steps| (41_890 * steps + 128) >> 8),
    ("a step that is too great", |steps| (41_892 * steps + 128) >> 8),
    ("a step of 10 bits, cut off: six characters are wrong", |steps| (167_563 * steps + 512) >> 10),
    ("the half is left out", |steps| (41_891 * steps) >> 8),
    ("the shift rounds up", |steps| (41_891 * steps + 255) >> 8),
    ("the shift loses the sign", |steps| ((41_891 * steps + 128) as u32 >> 8) as i32),
    ("half a turn on, 8 bits: nine characters are wrong", |steps| turned(8, 41_891, steps)),
    ("half a turn on, a step that is too small", |steps| turned(11, 335_126, steps)),
    ("half a turn on, a step that is too great", |steps| turned(11, 335_128, steps)),
    ("the product has 16 bits", |steps| (f64::from((1800 * steps) as i16) / 11.0).round() as i32),
];

/// The phase of a byte, whether it is a character or not.
fn of_any_byte(byte: u8) -> Centidegrees {
    Centidegrees { refusal: 0, value: right_phase(i32::from(byte) - 144) }
}

/// The right answer but for one byte, which is refused.
fn refused_at(refused: u8, byte: u8) -> Centidegrees {
    Reference.centidegrees(if byte == refused { 0 } else { byte })
}

/// What becomes of a byte that is refused.
fn refused_as(byte: u8, otherwise: fn(u8) -> Centidegrees) -> Centidegrees {
    match Reference.centidegrees(byte) {
        right if right.refusal == 0 => right,
        _ => otherwise(byte),
    }
}

const WRONG_CENTIDEGREES: &[(&str, Wrong)] = &[
    (
        "33 is a character",
        Wrong::Centidegrees(|byte| if byte == 33 { of_any_byte(byte) } else { Reference.centidegrees(byte) }),
    ),
    (
        "255 is a character",
        Wrong::Centidegrees(|byte| if byte == 255 { of_any_byte(byte) } else { Reference.centidegrees(byte) }),
    ),
    ("34 is refused", Wrong::Centidegrees(|byte| refused_at(34, byte))),
    ("254 is refused", Wrong::Centidegrees(|byte| refused_at(254, byte))),
    ("50 is told as 51", Wrong::Centidegrees(|byte| refused_as(byte, |_| Centidegrees { refusal: 51, value: 0 }))),
    (
        "50 leaves the value",
        Wrong::Centidegrees(|byte| refused_as(byte, |byte| Centidegrees { refusal: 50, ..of_any_byte(byte) })),
    ),
    ("any other byte is 0 degrees", Wrong::Centidegrees(|byte| refused_as(byte, |_| Centidegrees::default()))),
];

#[test]
fn wrong_centidegrees_are_found() {
    let phases = WRONG_PHASES.iter().map(|&(name, phase)| (name, Wrong::Phase(phase)));
    for (name, wrong) in phases.chain(WRONG_CENTIDEGREES.iter().copied()) {
        let found = compare_centidegrees(&wrong);
        assert!(found.is_err(), "not found: {name}");
    }
    let tally = agreed(compare_centidegrees(&Reference));
    println!("phases: {tally}");
    assert_all_phases_seen(&tally);
    // What the wrong ones are made of is right.
    agreed(compare_centidegrees(&Wrong::Phase(right_phase)));
    agreed(compare_centidegrees(&Wrong::Phase(|steps| (41_891 * steps + 128) >> 8)));
    agreed(compare_centidegrees(&Wrong::Phase(|steps| turned(11, 335_127, steps))));
}

fn right_reading(closed: bool, dialect: u32, bytes: &[u8], table: &mut [u32]) -> Reading {
    if closed {
        Reference.closed_reading(dialect, bytes, table)
    } else {
        Reference.open_reading(dialect, bytes, table)
    }
}

/// Goes behind the claimed length of a bad SiRad frame with data.
fn jump_behind_bad_frames(closed: bool, dialect: u32, bytes: &[u8], table: &mut [u32]) -> Reading {
    let right = right_reading(closed, dialect, bytes, table);
    if !closed || dialect != 0 || right.refusal != 0 {
        return right;
    }
    let (mut place, mut rows) = (0, 0);
    while place < bytes.len() {
        let judgement = Reference.judge(dialect, bytes, place);
        if judgement.state == WHOLE {
            let Some(row) = table.get_mut(ROW * rows..ROW * rows + ROW) else {
                break;
            };
            row.copy_from_slice(&[place as u32, judgement.length as u32, judgement.kind]);
            rows += 1;
            place += judgement.length as usize;
        } else if judgement.reason == 13 && bytes.len() > place + 6 {
            let size = std::str::from_utf8(&bytes[place + 2..place + 6]).unwrap_or("0");
            place += 16 + usize::from_str_radix(size, 16).unwrap_or(0);
        } else {
            place += 1;
        }
    }
    Reading { rows: rows as u64, ..right }
}

/// Takes a packet for bad if one of its types may not stand behind those of the packets that were read before it.
fn keep_types(closed: bool, dialect: u32, bytes: &[u8], table: &mut [u32]) -> Reading {
    let right = right_reading(closed, dialect, bytes, &mut table.to_vec());
    if !closed || dialect != 1 || right.refusal != 0 {
        return right_reading(closed, dialect, bytes, table);
    }
    let (mut place, mut rows, mut skipped, mut types) = (0, 0, 0, Vec::new());
    while place < bytes.len() {
        let judgement = Reference.judge(dialect, bytes, place);
        let with_its_own = [&types[..], &types_of(&bytes[place..])].concat();
        if judgement.state != WHOLE || any_excluded(&with_its_own) {
            skipped += 1;
            place += 1;
            continue;
        }
        let Some(row) = table.get_mut(ROW * rows..ROW * rows + ROW) else {
            return Reading { rows: rows as u64, skipped, next: place as u64, state: 1, refusal: 0 };
        };
        row.copy_from_slice(&[place as u32, judgement.length as u32, judgement.kind]);
        rows += 1;
        place += judgement.length as usize;
        types = with_its_own;
    }
    Reading { rows: rows as u64, skipped, next: place as u64, state: 2, refusal: 0 }
}

const WRONG_READINGS: &[(&str, Wrong)] = &[
    ("a bad frame's claimed length is jumped over", Wrong::Read(jump_behind_bad_frames)),
    ("the closed reading stops where a place waits", Wrong::Read(|_, d, b, table| Reference.open_reading(d, b, table))),
    ("the open reading skips what waits", Wrong::Read(|_, d, b, table| Reference.closed_reading(d, b, table))),
    ("no row is written", Wrong::Read(|closed, d, b, table| right_reading(closed, d, b, &mut table.to_vec()))),
    (
        "the last row of a table is not used",
        Wrong::Read(|closed, d, b, table| {
            let used = table.len().saturating_sub(1);
            right_reading(closed, d, b, &mut table[..used])
        }),
    ),
    (
        "part of a row is used",
        Wrong::Read(|closed, d, b, table| {
            let mut longer = table.to_vec();
            longer.resize(table.len().next_multiple_of(ROW), 0);
            let reading = right_reading(closed, d, b, &mut longer);
            table.copy_from_slice(&longer[..table.len()]);
            reading
        }),
    ),
    (
        "the rest of the table is cleared",
        Wrong::Read(|closed, d, b, table| {
            let reading = right_reading(closed, d, b, table);
            if reading.refusal == 0 {
                table[ROW * reading.rows as usize..].fill(0);
            }
            reading
        }),
    ),
    (
        "a refusal clears the table",
        Wrong::Read(|closed, d, b, table| {
            let reading = right_reading(closed, d, b, table);
            if reading.refusal != 0 {
                table.fill(0);
            }
            reading
        }),
    ),
    (
        "length and kind change places",
        Wrong::Read(|closed, d, b, table| {
            let reading = right_reading(closed, d, b, table);
            for row in table.chunks_exact_mut(ROW).take(reading.rows as usize) {
                row.swap(1, 2);
            }
            reading
        }),
    ),
    (
        "the end counts as skipped",
        Wrong::Read(|closed, d, b, table| {
            let reading = right_reading(closed, d, b, table);
            Reading { skipped: reading.skipped + u64::from(reading.state == 2), ..reading }
        }),
    ),
    (
        "the end of the open reading is state 2",
        Wrong::Read(|closed, d, b, table| {
            let reading = right_reading(closed, d, b, table);
            let state = if reading.next == b.len() as u64 && reading.refusal == 0 { 2 } else { reading.state };
            Reading { state, ..reading }
        }),
    ),
    (
        "a full table stops at once",
        Wrong::Read(|closed, d, b, table| {
            let reading = right_reading(closed, d, b, table);
            let full = reading.refusal == 0 && reading.rows > 0 && reading.rows as usize == table.len() / ROW;
            Reading { state: if full { 1 } else { reading.state }, ..reading }
        }),
    ),
    (
        "dialect 2 is read as dialect 1",
        Wrong::Read(|closed, d, b, table| right_reading(closed, if d == 2 { 1 } else { d }, b, table)),
    ),
    (
        "dialect 3 is read",
        Wrong::Read(|closed, d, b, table| right_reading(closed, if d == 3 { 2 } else { d }, b, table)),
    ),
    (
        "a row of vital signs has kind 16",
        Wrong::Read(|closed, d, b, table| {
            let reading = right_reading(closed, d, b, table);
            for row in table.chunks_exact_mut(ROW).take(reading.rows as usize) {
                row[2] = row[2].min(16);
            }
            reading
        }),
    ),
    (
        "a mebibyte is refused",
        Wrong::Read(|closed, d, b, table| match b.len() {
            1_048_576 if d < 3 => Reading { refusal: 3, ..Reading::default() },
            _ => right_reading(closed, d, b, table),
        }),
    ),
    ("types are kept from one packet to the next", Wrong::Read(keep_types)),
];

#[test]
fn wrong_readings_are_found() {
    for (name, wrong) in WRONG_READINGS {
        let found = compare_readings(wrong, first_seed(), READINGS);
        assert!(found.is_err(), "not found: {name}");
    }
}

#[test]
fn wrong_answers_are_found_by_splitting() {
    let by_splitting = [WRONG_JUDGEMENTS[11], WRONG_JUDGEMENTS[12], WRONG_READINGS[2], WRONG_READINGS[10]];
    let vital_signs = ["the last byte is not waited for", "a type that can't fit waits for its length"];
    let vital_signs = WRONG_VITAL_SIGNS.iter().filter(|(name, _)| vital_signs.contains(name));
    assert_eq!(vital_signs.clone().count(), 2);
    let empty_blocks = WRONG_EMPTY_BLOCKS.iter().filter(|(name, _)| *name == "a broken block is seen at its end");
    assert_eq!(empty_blocks.clone().count(), 1);
    let types = WRONG_TYPES.iter().filter(|(name, _)| *name == "a repeated type is seen at its length");
    assert_eq!(types.clone().count(), 1);
    for (name, wrong) in by_splitting.iter().chain(vital_signs).chain(empty_blocks).chain(types) {
        let found = compare_splits(wrong, first_seed(), SPLIT_CAPTURES);
        assert!(found.is_err(), "not found: {name}");
    }
}
