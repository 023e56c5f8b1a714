//! A subject against the reader: judgements, readings, millimetres, phases, and demand 3 on the subject's own answers; fields
//! and commands in [`fields`], the feeder in [`feeding`], whether anyone is close in [`proximity`].
//!
//! Every run is fixed by its first seed. The first difference ends it and tells the seed and the bytes.

pub mod feeding;
pub mod fields;
pub mod proximity;

use std::collections::BTreeMap;
use std::fmt;

use crate::abi::{Centidegrees, Judgement, Reading, Reference, Subject, BAD, WAITING, WHOLE};
use crate::generate::floats::{float_bits, float_edges, wrong_edition, wrong_editions};
use crate::generate::random::Random;
use crate::generate::{capture, mmwave, vital_signs, Family, DIALECT_NAMES};
use crate::judgement::{DIALECTS, MMWAVE, SIRAD, VITAL_SIGNS};
use crate::numbers::EDITIONS;
use crate::packet_rules::MAGIC;
use crate::reading::{ROW, TABLE_FULL};
use crate::refusal::MAX_BYTES;
use crate::sirad::START_MARKER;

/// Where the subject and the reader part.
#[derive(Clone, Debug)]
pub struct Difference {
    /// What the two say.
    pub what: String,
    /// How to make the bytes again.
    pub origin: String,
    /// The bytes that were lent.
    pub bytes: Vec<u8>,
}

impl Difference {
    /// The same, and the edition that was named.
    fn by_edition(self, edition: u32) -> Difference {
        Difference { what: format!("{} by edition {edition}", self.what), ..self }
    }
}

/// The most bytes that a difference prints; its seed makes all of them.
const PRINTED: usize = 4096;

impl fmt::Display for Difference {
    fn fmt(&self, out: &mut fmt::Formatter) -> fmt::Result {
        writeln!(out, "{}", self.what)?;
        writeln!(out, "from {}", self.origin)?;
        write!(out, "{} bytes:", self.bytes.len())?;
        for byte in self.bytes.iter().take(PRINTED) {
            write!(out, " {byte:02x}")?;
        }
        if self.bytes.len() > PRINTED {
            write!(out, " ..")?;
        }
        Ok(())
    }
}

/// How often each answer came, so that a run can be seen to have tried them all.
#[derive(Clone, Debug, Default)]
pub struct Tally {
    /// The comparisons made.
    pub total: u64,
    /// By answer.
    pub answers: BTreeMap<String, u64>,
}

impl Tally {
    fn count(&mut self, answer: String) {
        self.total += 1;
        *self.answers.entry(answer).or_default() += 1;
    }

    fn count_judgement(&mut self, answer: &Judgement) {
        self.count(match *answer {
            Judgement { refusal: 0, state: WHOLE, kind, .. } => format!("whole {kind}"),
            Judgement { refusal: 0, state: BAD, reason, .. } => format!("bad {reason}"),
            Judgement { refusal: 0, .. } => "waiting".to_owned(),
            Judgement { refusal, .. } => format!("refused {refusal}"),
        });
    }

    fn count_reading(&mut self, answer: &Reading, closed: bool) {
        let name = if closed { "closed" } else { "open" };
        self.count(match answer.refusal {
            0 => format!("{name}, state {}", answer.state),
            refusal => format!("{name}, refused {refusal}"),
        });
    }

    fn count_phase(&mut self, answer: &Centidegrees) {
        self.count(match answer.refusal {
            0 if answer.value == 0 => "zero".to_owned(),
            0 => (if answer.value < 0 { "below zero" } else { "above zero" }).to_owned(),
            refusal => format!("refused {refusal}"),
        });
    }

    /// How often this answer came.
    pub fn of(&self, answer: &str) -> u64 {
        self.answers.get(answer).copied().unwrap_or(0)
    }
}

impl fmt::Display for Tally {
    fn fmt(&self, out: &mut fmt::Formatter) -> fmt::Result {
        write!(out, "{} in all", self.total)?;
        for (answer, count) in &self.answers {
            write!(out, "; {answer}: {count}")?;
        }
        Ok(())
    }
}

/// The first seed of a run: 1, or what the environment variable `VQ_SEED` says.
pub fn first_seed() -> u64 {
    std::env::var("VQ_SEED").map_or(1, |seed| seed.parse().expect("VQ_SEED is a number"))
}

/// A capture and how it was made.
struct Sample {
    dialect: u32,
    origin: String,
    bytes: Vec<u8>,
}

impl Sample {
    /// The sample of a seed: the dialect, the family and the length follow from it. Most are short; some packets are lent to
    /// the other packet dialect.
    fn new(seed: u64, lengths: &[usize]) -> Sample {
        let mut random = Random::new(seed ^ 0x5A5A_5A5A);
        let dialect = random.pick(&DIALECTS);
        let family = random.pick(&[
            Family::Clean,
            Family::Noisy,
            Family::Cut,
            Family::Damaged,
            Family::Hostile,
            Family::Hostile,
        ]);
        let longest = random.pick(lengths);
        let length = random.within(1, longest);
        let sample = Sample::of(dialect, family, seed, length);
        match dialect {
            MMWAVE if random.once_in(8) => Sample { dialect: VITAL_SIGNS, ..sample },
            VITAL_SIGNS if random.once_in(8) => Sample { dialect: MMWAVE, ..sample },
            _ => sample,
        }
    }

    fn of(dialect: u32, family: Family, seed: u64, length: usize) -> Sample {
        let name = DIALECT_NAMES[dialect as usize];
        let origin = format!("seed {seed}: cargo run --bin capture -- {name} {} {seed} {length}", family.name());
        Sample { dialect, origin, bytes: capture(dialect, family, seed, length) }
    }

    fn difference(&self, bytes: &[u8], what: String) -> Difference {
        Difference { what, origin: self.origin.clone(), bytes: bytes.to_vec() }
    }
}

/// Compares the judgement at one place.
pub fn check_judgement(subject: &dyn Subject, dialect: u32, bytes: &[u8], place: usize) -> Result<Judgement, String> {
    let (expected, answer) = (Reference.judge(dialect, bytes, place), subject.judge(dialect, bytes, place));
    if answer == expected {
        return Ok(answer);
    }
    Err(format!("judgement of dialect {dialect} at {place}: expected {expected:?}, answered {answer:?}"))
}

/// Compares one reading and all of the table, of which every number is set before.
pub fn check_reading(
    subject: &dyn Subject,
    dialect: u32,
    bytes: &[u8],
    numbers: usize,
    closed: bool,
) -> Result<Reading, String> {
    let (expected, expected_table) = read(&Reference, dialect, bytes, numbers, closed);
    let (answer, table) = read(subject, dialect, bytes, numbers, closed);
    let name = if closed { "closed" } else { "open" };
    let what = format!("{name} reading of dialect {dialect} with a table of {numbers}");
    if answer != expected {
        return Err(format!("{what}: expected {expected:?}, answered {answer:?}"));
    }
    if let Some(index) = (0..numbers).find(|&index| table[index] != expected_table[index]) {
        return Err(format!("{what}: number {index} should be {}, is {}", expected_table[index], table[index]));
    }
    Ok(answer)
}

fn read(subject: &dyn Subject, dialect: u32, bytes: &[u8], numbers: usize, closed: bool) -> (Reading, Vec<u32>) {
    let mut table: Vec<u32> = (0..numbers as u32).map(|index| 0xA5A5_0000 ^ index).collect();
    let reading = if closed {
        subject.closed_reading(dialect, bytes, &mut table)
    } else {
        subject.open_reading(dialect, bytes, &mut table)
    };
    (reading, table)
}

/// Compares one conversion.
pub fn check_millimetres(subject: &dyn Subject, edition: u32, bits: u32) -> Result<(), String> {
    let (expected, answer) = (Reference.millimetres(edition, bits), subject.millimetres(edition, bits));
    if answer == expected {
        return Ok(());
    }
    Err(format!("millimetres of {bits:08X} by edition {edition}: expected {expected:?}, answered {answer:?}"))
}

/// Compares the phase of one byte.
pub fn check_centidegrees(subject: &dyn Subject, character: u8) -> Result<Centidegrees, String> {
    let (expected, answer) = (Reference.centidegrees(character), subject.centidegrees(character));
    if answer == expected {
        return Ok(answer);
    }
    Err(format!("centidegrees of {character}: expected {expected:?}, answered {answer:?}"))
}

/// Every place of a short capture, both readings, tables of several sizes: what a fuzzer calls.
pub fn check_capture(subject: &dyn Subject, dialect: u32, bytes: &[u8]) -> Result<(), String> {
    for place in 0..=bytes.len() + 1 {
        check_judgement(subject, dialect, bytes, place)?;
    }
    for numbers in table_sizes(bytes) {
        check_reading(subject, dialect, bytes, numbers, false)?;
        check_reading(subject, dialect, bytes, numbers, true)?;
    }
    Ok(())
}

/// None, part of a row, a few, one row too few, exactly enough, more than enough.
fn table_sizes(bytes: &[u8]) -> [usize; 8] {
    let all = ROW * (bytes.len() / 8 + 1);
    let needed = DIALECTS.map(|dialect| read(&Reference, dialect, bytes, all, true).0.rows as usize * ROW);
    let needed = needed.into_iter().max().unwrap_or(0);
    [0, 2, 3, 5, needed.saturating_sub(1), needed, needed + 1, all]
}

/// At least so many judgements: all places of short captures, the places of long ones where a frame may start, ends cut
/// off anywhere, and each refusal.
pub fn compare_judgements(subject: &dyn Subject, first_seed: u64, at_least: u64) -> Result<Tally, Difference> {
    let mut tally = Tally::default();
    for seed in first_seed.. {
        if tally.total >= at_least {
            break;
        }
        let sample = Sample::new(seed, &[60, 200, 200, 600, 3000, 9000]);
        let mut random = Random::new(!seed);
        for place in places(&mut random, &sample) {
            let end = match random.below(3) {
                0 => random.within(place, sample.bytes.len()),
                1 => sample.bytes.len().min(place + random.below(80)),
                _ => sample.bytes.len(),
            };
            let lent = &sample.bytes[..end];
            let answer = check_judgement(subject, sample.dialect, lent, place);
            tally.count_judgement(&answer.map_err(|what| sample.difference(lent, what))?);
        }
    }
    compare_refused_judgements(subject, &mut tally)?;
    Ok(tally)
}

/// Places to judge: all if they are few, else those where a frame may start, some others, and the end.
fn places(random: &mut Random, sample: &Sample) -> Vec<usize> {
    let bytes = &sample.bytes;
    if bytes.len() <= 200 {
        return (0..=bytes.len()).collect();
    }
    let first = if sample.dialect == SIRAD { START_MARKER } else { MAGIC[0] };
    let mut places: Vec<usize> = (0..bytes.len()).filter(|&place| bytes[place] == first).collect();
    places.truncate(300);
    places.extend((0..20).map(|_| random.below(bytes.len())));
    places.push(bytes.len());
    places
}

fn compare_refused_judgements(subject: &dyn Subject, tally: &mut Tally) -> Result<(), Difference> {
    let long = long_line();
    let whole = &long[..MAX_BYTES];
    let cases: [&[u8]; 5] = [b"", b"!", &long[..300], whole, &long];
    for bytes in cases {
        for dialect in [0, 1, 2, 3, 4, 16, 17, 256, 258, 1 << 31, u32::MAX] {
            for place in [0, 1, bytes.len(), bytes.len() + 1, usize::MAX] {
                let answer = check_judgement(subject, dialect, bytes, place);
                let answer = answer.map_err(|what| Difference {
                    what,
                    origin: "the refusals, on bytes without a seed".to_owned(),
                    bytes: bytes.to_vec(),
                })?;
                tally.count_judgement(&answer);
            }
        }
    }
    Ok(())
}

/// One byte over the limit, with a frame of each dialect at its start.
fn long_line() -> Vec<u8> {
    let mut line = vec![b' '; MAX_BYTES + 1];
    line[..8].copy_from_slice(b"!E0000\r\n");
    let mut random = Random::new(3);
    let packets = [mmwave::packet(&mut random, 128), vital_signs::packet(&mut random, 128)];
    let packets = packets.into_iter().flatten().collect::<Vec<_>>().concat();
    line[8..8 + packets.len()].copy_from_slice(&packets);
    line
}

/// At least so many readings, open and closed, with tables from none to more than enough; a few of a whole mebibyte, and
/// each refusal.
pub fn compare_readings(subject: &dyn Subject, first_seed: u64, at_least: u64) -> Result<Tally, Difference> {
    let mut tally = Tally::default();
    let mut compare = |sample: &Sample, numbers: &[usize]| {
        for &numbers in numbers {
            for closed in [false, true] {
                let answer = check_reading(subject, sample.dialect, &sample.bytes, numbers, closed);
                tally.count_reading(&answer.map_err(|what| sample.difference(&sample.bytes, what))?, closed);
            }
        }
        Ok(tally.total)
    };
    let mut done = 0;
    for seed in first_seed.. {
        if done >= at_least {
            break;
        }
        let lengths: &[usize] = if seed % 40 == 0 { &[80_000, 150_000] } else { &[60, 200, 600, 3000, 9000] };
        let sample = Sample::new(seed, lengths);
        let sizes = table_sizes(&sample.bytes);
        let some = Random::new(!seed).below(sizes.len());
        done = compare(&sample, &[sizes[some], sizes[(some + 3) % 8], sizes[7]])?;
    }
    for (index, family) in (0..).zip(Family::ALL) {
        for dialect in DIALECTS {
            let sample = Sample::of(dialect, family, first_seed + index, MAX_BYTES);
            compare(&sample, &[300, ROW * MAX_BYTES / 8])?;
        }
    }
    let long = long_line();
    for length in [0, 300, MAX_BYTES, MAX_BYTES + 1] {
        for dialect in [0, 1, 2, 3, 16, 17, 1 << 31, u32::MAX] {
            let origin = "the refusals, on bytes without a seed".to_owned();
            let sample = Sample { dialect, origin, bytes: long[..length].to_vec() };
            compare(&sample, &[0, 2, 3, 30])?;
        }
    }
    Ok(tally)
}

/// A run of conversions.
struct Conversions<'a> {
    subject: &'a dyn Subject,
    done: u64,
}

impl Conversions<'_> {
    fn compare(&mut self, editions: &[u32], bits: u32, origin: &dyn Fn() -> String) -> Result<(), Difference> {
        for &edition in editions {
            self.done += 1;
            let answer = check_millimetres(self.subject, edition, bits);
            answer.map_err(|what| Difference { what, origin: origin(), bytes: bits.to_le_bytes().to_vec() })?;
        }
        Ok(())
    }
}

/// Floats of every answer and refusal, for editions that are none.
const SOME_FLOATS: [u32; 9] =
    [0, 1 << 31, 0x3F80_0000, 0x3D80_0000, 0xBD80_0000, 0x447A_0000, 0xC47A_0001, 0x7F80_0000, 0xFFC0_0000];

/// Conversions by both editions and by others: editions that are none, all exponents with fractions at the edges, all
/// halves, both sides of every half millimetre, both signs, then so many of any. Answers their number.
pub fn compare_millimetres(subject: &dyn Subject, first_seed: u64, at_least: u64) -> Result<u64, Difference> {
    let mut run = Conversions { subject, done: 0 };
    for edition in wrong_editions() {
        SOME_FLOATS.iter().try_for_each(|&bits| run.compare(&[edition], bits, &|| "the editions".to_owned()))?;
    }
    for (bits, wrong) in float_edges().into_iter().zip(wrong_editions().into_iter().cycle()) {
        run.compare(&[1, 2, wrong], bits, &|| "the floats at the edges".to_owned())?;
    }
    for below in 0..1_000_000u32 {
        let half = ((f64::from(below) + 0.5) / 1000.0) as f32;
        for step in 0..3 {
            let bits = half.to_bits() + step - 1;
            run.compare(&EDITIONS, bits, &|| format!("the floats around {below}.5 mm"))?;
            run.compare(&EDITIONS, bits | 1 << 31, &|| format!("the floats around -{below}.5 mm"))?;
        }
    }
    let mut random = Random::new(first_seed);
    for _ in 0..at_least {
        let (bits, wrong) = (float_bits(&mut random), wrong_edition(&mut random));
        run.compare(&[1, 2, wrong], bits, &|| format!("the floats of seed {first_seed}"))?;
    }
    Ok(run.done)
}

/// All 2^32 floats in steps of so many, by both editions. Answers the number of conversions.
pub fn compare_every_float(subject: &dyn Subject, step: usize) -> Result<u64, Difference> {
    let mut run = Conversions { subject, done: 0 };
    for bits in (0..=u32::MAX).step_by(step) {
        run.compare(&EDITIONS, bits, &|| "all floats".to_owned())?;
    }
    Ok(run.done)
}

/// The phases of all 256 bytes.
pub fn compare_centidegrees(subject: &dyn Subject) -> Result<Tally, Difference> {
    let mut tally = Tally::default();
    for character in 0..=255 {
        let answer = check_centidegrees(subject, character);
        let origin = "all bytes as characters".to_owned();
        tally.count_phase(&answer.map_err(|what| Difference { what, origin, bytes: vec![character] })?);
    }
    Ok(tally)
}

/// Every split A, B of so many short captures: the subject against the reader on A, and demand 3 on the subject's own
/// answers on A and on A followed by B. Answers the number of splits.
pub fn compare_splits(subject: &dyn Subject, first_seed: u64, captures: u64) -> Result<u64, Difference> {
    let mut splits = 0;
    for seed in first_seed..first_seed + captures {
        let sample = Sample::new(seed, &[40, 90, 150, 220]);
        for end in 0..=sample.bytes.len() {
            splits += 1;
            let tell = |what| sample.difference(&sample.bytes, format!("split at {end}: {what}"));
            check_split(subject, sample.dialect, &sample.bytes, end).map_err(tell)?;
        }
    }
    Ok(splits)
}

/// The open reading goes on where A's stopped: A's rows, then the rows of the bytes from its next place on, shifted.
fn check_goes_on(
    subject: &dyn Subject,
    dialect: u32,
    bytes: &[u8],
    (first, first_rows): (Reading, &[u32]),
    numbers: usize,
) -> Result<(), String> {
    let (rest, rest_table) = read(subject, dialect, &bytes[first.next as usize..], numbers, false);
    let (all, all_table) = read(subject, dialect, bytes, first_rows.len() + numbers, false);
    let joined = Reading {
        rows: first.rows + rest.rows,
        skipped: first.skipped + rest.skipped,
        next: first.next + rest.next,
        ..rest
    };
    let shifted = rest_table[..ROW * rest.rows as usize].chunks(ROW);
    let shifted = shifted.flat_map(|row| [row[0] + first.next as u32, row[1], row[2]]);
    let rows: Vec<u32> = first_rows.iter().copied().chain(shifted).collect();
    if all != joined || all_table[..rows.len()] != rows {
        return Err(format!(
            "a table of {numbers}: {first:?}, then {rest:?} from there on, but {all:?} in one reading"
        ));
    }
    Ok(())
}

/// Demand 3 for the first `end` bytes as A and the rest as B.
pub fn check_split(subject: &dyn Subject, dialect: u32, bytes: &[u8], end: usize) -> Result<(), String> {
    let sooner = &bytes[..end];
    for numbers in [0, 3, 4, 6, ROW * (bytes.len() / 8 + 1)] {
        check_reading(subject, dialect, sooner, numbers, false)?;
        let (first, first_table) = read(subject, dialect, sooner, numbers, false);
        let (second, second_table) = read(subject, dialect, bytes, numbers, false);
        let written = ROW * first.rows as usize;
        if first.rows > second.rows || first_table[..written] != second_table[..written] {
            return Err(format!(
                "a table of {numbers}: the rows of A are not the first of A, B: {first:?}, {second:?}"
            ));
        }
        if first.state == TABLE_FULL && (first != second || first_table != second_table) {
            return Err(format!("a full table of {numbers}, and the answers differ: {first:?}, {second:?}"));
        }
        check_goes_on(subject, dialect, bytes, (first, &first_table[..written]), numbers)?;
    }
    for place in 0..=end {
        let first = check_judgement(subject, dialect, sooner, place)?;
        if first.state != WAITING {
            let second = subject.judge(dialect, bytes, place);
            if first != second {
                return Err(format!("place {place}: {first:?} in A is {second:?} in A, B"));
            }
        }
    }
    Ok(())
}
