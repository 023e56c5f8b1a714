//! Whether anyone is close: a subject against the reader, at the distances about which an answer turns.
//!
//! One seed makes one capture; the tally counts the answers.

use super::{Difference, Sample, Tally};
use crate::abi::proximity::{Closeness, ProximitySubject};
use crate::abi::Reference;
use crate::generate::doorway;
use crate::generate::floats::{wrong_edition, wrong_editions};
use crate::generate::mmwave::{bytes_of_points, packet_of};
use crate::generate::random::Random;
use crate::judgement::MMWAVE;
use crate::numbers::EDITIONS;
use crate::proximity::every_point;
use crate::refusal::{MAX_BYTES, MAX_DISTANCE};

/// Compares one answer.
pub fn check_anyone_close(
    subject: &dyn ProximitySubject,
    dialect: u32,
    edition: u32,
    distance: u32,
    bytes: &[u8],
) -> Result<Closeness, String> {
    let expected = Reference.anyone_close(dialect, edition, distance, bytes);
    let answer = subject.anyone_close(dialect, edition, distance, bytes);
    if answer == expected {
        return Ok(answer);
    }
    let asked = format!("within {distance} mm by edition {edition} in dialect {dialect}");
    Err(format!("anyone close {asked}: expected {expected:?}, answered {answer:?}"))
}

/// One capture, by both editions and another, at the distances about which an answer turns and one more, then by other
/// dialects: what a fuzzer calls.
pub fn check_proximity(
    subject: &dyn ProximitySubject,
    edition: u32,
    distance: u32,
    bytes: &[u8],
) -> Result<Tally, String> {
    let mut tally = Tally::default();
    for distance in distances(bytes).into_iter().chain([distance]) {
        let mut by = |edition| {
            let answer = check_anyone_close(subject, MMWAVE, edition, distance, bytes)?;
            tally.count_closeness(&answer);
            Ok::<Closeness, String>(answer)
        };
        let (first, second) = (by(1)?, by(2)?);
        by(edition)?;
        if first != second {
            tally.count("the editions differ".to_owned());
        }
    }
    for dialect in OTHER_DIALECTS {
        tally.count_closeness(&check_anyone_close(subject, dialect, edition, distance, bytes)?);
    }
    Ok(tally)
}

/// Dialects that are not asked; the low bits of some are those of 1.
const OTHER_DIALECTS: [u32; 8] = [0, 2, 3, 16, 257, 1 << 16 | 1, 1 << 31 | 1, u32::MAX];

/// Distances that every capture is asked for.
const EDGE_DISTANCES: [u32; 11] =
    [0, 1, 62, 63, 187, 188, MAX_DISTANCE - 1, MAX_DISTANCE, MAX_DISTANCE + 1, 1 << 31, u32::MAX];
/// The most points whose own distances are asked for.
const MOST_POINTS: usize = 6;

/// The edges, and about the greatest magnitude of the first points' coordinates by either edition.
fn distances(bytes: &[u8]) -> Vec<u32> {
    let mut distances = EDGE_DISTANCES.to_vec();
    for edition in EDITIONS {
        let points = every_point(edition, bytes).unwrap_or_default();
        let readable = points.into_iter().filter_map(|located| located.point.ok());
        for point in readable.take(MOST_POINTS) {
            let own = [point.x, point.y, point.z].map(i32::unsigned_abs).into_iter().max().unwrap_or(0);
            distances.extend([own.saturating_sub(1), own, own + 1]);
        }
    }
    distances.sort_unstable();
    distances.dedup();
    distances
}

impl Tally {
    fn count_closeness(&mut self, answer: &Closeness) {
        self.count(match *answer {
            Closeness { refusal: 0, close: 0, .. } => "nobody".to_owned(),
            Closeness { refusal: 0, place: 0, index: 0, .. } => "close at the start".to_owned(),
            Closeness { refusal: 0, index: 0, .. } => "close further on".to_owned(),
            Closeness { refusal: 0, index: 256.., .. } => "close at an index over 255".to_owned(),
            Closeness { refusal: 0, .. } => "close at a later index".to_owned(),
            Closeness { refusal, .. } => format!("refused {refusal}"),
        });
    }

    fn add(&mut self, other: Tally) {
        self.total += other.total;
        for (answer, count) in other.answers {
            *self.answers.entry(answer).or_default() += count;
        }
    }
}

/// The refusals; so many captures of points near a door, every eighth a capture of any dialect and family; then long ones.
pub fn compare_proximity(subject: &dyn ProximitySubject, first_seed: u64, captures: u64) -> Result<Tally, Difference> {
    let mut tally = Tally::default();
    compare_refusals(subject, &mut tally)?;
    for seed in first_seed..first_seed + captures {
        let mut random = Random::new(!seed);
        let sample = if seed % 8 == 0 { Sample::new(seed, &[200, 600, 3000]) } else { near_door(seed) };
        let (edition, distance) = (wrong_edition(&mut random), random.below(MAX_DISTANCE as usize) as u32);
        let answers = check_proximity(subject, edition, distance, &sample.bytes);
        tally.add(answers.map_err(|what| sample.difference(&sample.bytes, what))?);
    }
    compare_long(subject, &mut tally)?;
    Ok(tally)
}

fn near_door(seed: u64) -> Sample {
    let bytes = doorway::capture(&mut Random::new(seed));
    Sample { dialect: MMWAVE, origin: format!("seed {seed} of the captures near a door"), bytes }
}

/// A packet of so many points, this one last and the others far away.
fn last_of(count: usize, last: [f32; 4]) -> Vec<u8> {
    let mut points = vec![[900.0; 4]; count - 1];
    points.push(last);
    packet_of(&mut Random::new(1), count, vec![(1, bytes_of_points(&points))])
}

/// As many packets as there can be, as many points as a packet can have, and a packet at the end of as many bytes as can be
/// lent: in each the last point is the first that is close.
fn long_captures() -> [Vec<u8>; 3] {
    let close = [0.25, -0.5, 0.125, 0.0];
    let far = last_of(1, [0.25, -0.5, -0.625, 0.0]);
    let mut packets = far.repeat(MAX_BYTES / far.len() - 1);
    packets.extend(last_of(1, close));
    let mut noise = vec![b' '; MAX_BYTES - 64];
    noise.extend(last_of(1, close));
    [packets, last_of(2045, close), noise]
}

fn compare_long(subject: &dyn ProximitySubject, tally: &mut Tally) -> Result<(), Difference> {
    for bytes in long_captures() {
        for distance in [499, 500] {
            let answer = check_anyone_close(subject, MMWAVE, 1, distance, &bytes);
            tally.count_closeness(&answer.map_err(|what| fixed("the long captures", &bytes, what))?);
        }
    }
    Ok(())
}

fn fixed(origin: &str, bytes: &[u8], what: String) -> Difference {
    Difference { what, origin: format!("{origin}, on bytes without a seed"), bytes: bytes.to_vec() }
}

/// Every order of refusals, on no bytes, a packet, and one byte more than can be lent.
fn compare_refusals(subject: &dyn ProximitySubject, tally: &mut Tally) -> Result<(), Difference> {
    let mut long = last_of(1, [0.0; 4]);
    long.resize(MAX_BYTES + 1, b' ');
    for length in [0, 64, MAX_BYTES + 1] {
        let bytes = &long[..length];
        for dialect in OTHER_DIALECTS.into_iter().chain([MMWAVE]) {
            for edition in wrong_editions().into_iter().chain(EDITIONS) {
                for distance in [0, MAX_DISTANCE, MAX_DISTANCE + 1, 1 << 31, u32::MAX] {
                    let answer = check_anyone_close(subject, dialect, edition, distance, bytes);
                    tally.count_closeness(&answer.map_err(|what| fixed("the refusals", bytes, what))?);
                }
            }
        }
    }
    Ok(())
}
