//! Whether anyone is close (paper 02 (vi)): cases worked out by hand, asked of the reader and of the library; the library
//! against the reader; and the comparison against readers that are wrong on purpose.
//!
//! The library is compared if `VQ_LIB_DIR` names the directory that holds `libvellanquor.a`. `VQ_SEED` gives another first
//! seed than the usual one.

mod editions;
mod wrong_closeness;

use std::rc::Rc;

use radar_reference::abi::proximity::{Closeness, ProximitySubject};
use radar_reference::abi::Reference;
use radar_reference::compare::proximity::compare_proximity;
use radar_reference::compare::{first_seed, Difference, Tally};
use radar_reference::generate::mmwave::{broken_around, bytes_of_points, packet_of};
use radar_reference::generate::random::Random;
use radar_reference::numbers::EDITIONS;
use radar_reference::refusal::MAX_BYTES;
use wrong_closeness::{wrong_readers, RIGHT_PARTS};

/// The captures of a run, and the answers that must come so often at least.
const CAPTURES: u64 = 2000;
const SEEN: &[(&str, u64)] = &[
    ("nobody", 10_000),
    ("close at the start", 5000),
    ("close further on", 5000),
    ("close at a later index", 5000),
    ("close at an index over 255", 1),
    ("the editions differ", 300),
    ("refused 1", 10_000),
    ("refused 3", 100),
    ("refused 32", 10_000),
    ("refused 33", 10_000),
];

fn compare(subject: &dyn ProximitySubject) -> Result<Tally, Difference> {
    compare_proximity(subject, first_seed(), CAPTURES)
}

/// The subject agrees throughout, and all answers came.
fn assert_agrees(subject: &dyn ProximitySubject) {
    let tally = compare(subject).unwrap_or_else(|difference| panic!("{difference}"));
    println!("{tally}");
    for &(answer, least) in SEEN {
        assert!(tally.of(answer) >= least, "{answer} in {tally}");
    }
}

#[cfg(gateway_linked)]
#[test]
fn the_library_agrees() {
    assert_agrees(&radar_reference::gateway::Gateway);
}

#[test]
fn what_is_compared_covers_all_answers() {
    assert_agrees(&Reference);
}

fn subjects() -> Vec<&'static dyn ProximitySubject> {
    vec![
        &Reference,
        #[cfg(gateway_linked)]
        &radar_reference::gateway::Gateway,
    ]
}

// Cases worked out by hand.

/// A question and its answer.
struct Case {
    what: &'static str,
    dialect: u32,
    edition: u32,
    distance: u32,
    bytes: Rc<[u8]>,
    answer: Closeness,
}

const NOBODY: Closeness = Closeness { refusal: 0, close: 0, place: 0, index: 0 };

fn close(place: u64, index: u64) -> Closeness {
    Closeness { refusal: 0, close: 1, place, index }
}

impl Case {
    fn is_answered_by(&self, subject: &dyn ProximitySubject) -> bool {
        subject.anyone_close(self.dialect, self.edition, self.distance, &self.bytes) == self.answer
    }

    fn by_edition(what: &'static str, edition: u32, distance: u32, bytes: &[u8], answer: Closeness) -> Case {
        Case { what, dialect: 1, edition, distance, bytes: bytes.into(), answer }
    }
}

/// The same answer by both editions.
fn by_both(what: &'static str, distance: u32, bytes: &[u8], answer: Closeness) -> [Case; 2] {
    EDITIONS.map(|edition| Case::by_edition(what, edition, distance, bytes, answer))
}

/// Within 300 mm, and far away in each coordinate.
const NEAR: [f32; 3] = [0.1, -0.2, 0.3];
const FAR: [f32; 3] = [5.0, -6.0, 7.0];

/// A packet of a record of type 1 with these points; one point makes 64 bytes, two or three 96, four or five 128.
fn packet(points: &[[f32; 3]]) -> Vec<u8> {
    packet_with(points.len(), &[(1, points)])
}

/// A packet of records with these types and points.
fn packet_with(objects: usize, records: &[(u32, &[[f32; 3]])]) -> Vec<u8> {
    let payload = |points: &[[f32; 3]]| {
        // A Doppler value counts for nothing, also one that is no number.
        bytes_of_points(&points.iter().map(|&[x, y, z]| [x, y, z, f32::NAN]).collect::<Vec<_>>())
    };
    let records = records.iter().map(|&(record_type, points)| (record_type, payload(points)));
    packet_of(&mut Random::new(1), objects, records.collect())
}

/// Each coordinate alone decides, whatever its sign.
fn coordinates() -> Vec<Case> {
    let mut cases = Vec::new();
    cases.extend(by_both("all three at most", 300, &packet(&[NEAR]), close(0, 0)));
    cases.extend(by_both("one over", 299, &packet(&[NEAR]), NOBODY));
    cases.extend(by_both("all at the distance", 300, &packet(&[[0.3, -0.3, 0.3]]), close(0, 0)));
    for axis in 0..3 {
        for value in [0.5, -0.5] {
            let mut point = [0.0; 3];
            point[axis] = value;
            cases.extend(by_both("one coordinate too far", 499, &packet(&[point]), NOBODY));
            cases.extend(by_both("one coordinate at the distance", 500, &packet(&[point]), close(0, 0)));
        }
    }
    cases
}

/// "Edition named": 62.5 mm and 187.5 mm, of both signs, in each coordinate and beside it.
fn halves() -> Vec<Case> {
    let mut cases = Vec::new();
    let half = 0.0625f32;
    for axis in 0..3 {
        for sign in [1.0, -1.0] {
            let point = |value: f32| {
                let mut point = [0.0; 3];
                point[axis] = sign * value;
                packet(&[point])
            };
            let beside = |step: i32| point(f32::from_bits(half.to_bits().wrapping_add_signed(step)));
            cases.push(Case::by_edition("62.5 within 62, edition 1", 1, 62, &point(half), NOBODY));
            cases.push(Case::by_edition("62.5 within 62, edition 2", 2, 62, &point(half), close(0, 0)));
            cases.extend(by_both("62.5 within 63", 63, &point(half), close(0, 0)));
            cases.extend(by_both("62.5 within 61", 61, &point(half), NOBODY));
            cases.extend(by_both("below 62.5 within 62", 62, &beside(-1), close(0, 0)));
            cases.extend(by_both("above 62.5 within 62", 62, &beside(1), NOBODY));
            cases.extend(by_both("187.5 within 187", 187, &point(0.1875), NOBODY));
            cases.extend(by_both("187.5 within 188", 188, &point(0.1875), close(0, 0)));
        }
    }
    let packets = [packet(&[FAR]), packet(&[FAR, [half, -half, half]]), packet(&[[0.01; 3]])].concat();
    cases.push(Case::by_edition("the editions find other points", 1, 62, &packets, close(160, 0)));
    cases.push(Case::by_edition("the editions find other points", 2, 62, &packets, close(64, 1)));
    cases
}

/// The least and the greatest distance.
fn distances() -> Vec<Case> {
    let limit = packet(&[[1000.0, -1000.0, 1000.0]]);
    let mut cases = Vec::new();
    cases.extend(by_both("both zeros within 0", 0, &packet(&[[0.0, -0.0, 0.0]]), close(0, 0)));
    cases.extend(by_both("0.4 mm within 0", 0, &packet(&[[0.0004, -0.0004, 0.0004]]), close(0, 0)));
    cases.extend(by_both("0.6 mm within 0", 0, &packet(&[[0.0, 0.0, -0.0006]]), NOBODY));
    cases.extend(by_both("0.6 mm within 1", 1, &packet(&[[0.0, 0.0, -0.0006]]), close(0, 0)));
    cases.extend(by_both("1000 m within 1,000,000", 1_000_000, &limit, close(0, 0)));
    cases.extend(by_both("1000 m within 999,999", 999_999, &limit, NOBODY));
    cases.extend(by_both("65,536 mm within 1", 1, &packet(&[[65.536, 0.0, 0.0]]), NOBODY));
    cases.extend(by_both("65,535 mm within 65,536", 65_536, &packet(&[[65.535, 0.0, 0.0]]), close(0, 0)));
    cases
}

/// "Points whose coordinates are refused count as not close": one coordinate alone, beside a point that is close.
fn refused_coordinates() -> Vec<Case> {
    let mut cases = Vec::new();
    for axis in 0..3 {
        for value in [f32::INFINITY, f32::NEG_INFINITY, f32::NAN, f32::MAX, 1000.0001, -1001.0] {
            let mut point = [0.0; 3];
            point[axis] = value;
            cases.extend(by_both("refused alone", 1_000_000, &packet(&[point]), NOBODY));
            cases.extend(by_both("refused first", 300, &packet(&[point, NEAR, point]), close(0, 1)));
            let packets = [packet(&[point]), packet(&[point, point, NEAR])].concat();
            cases.extend(by_both("refused in a packet before", 300, &packets, close(64, 2)));
        }
    }
    cases.extend(by_both("refused throughout", 1_000_000, &packet(&[[f32::NAN, f32::INFINITY, 2e9]]), NOBODY));
    cases
}

/// "The place of the first packet and the index of its first point that is close."
fn places() -> Vec<Case> {
    let near = packet(&[NEAR]);
    let several = [packet(&[FAR, FAR]), packet(&[FAR, NEAR, NEAR]), packet(&[[0.0; 3]])].concat();
    let many = packet(&[vec![FAR; 299], vec![NEAR; 2]].concat());
    let mut cases = Vec::new();
    cases.extend(by_both("the first of several", 300, &several, close(96, 1)));
    cases.extend(by_both("the nearest", 100, &several, close(192, 0)));
    cases.extend(by_both("none of several", 6999, &packet(&[FAR, FAR]).repeat(3), NOBODY));
    cases.extend(by_both("a longer one behind it", 300, &[&near[..], &packet(&[NEAR, FAR])].concat(), close(0, 0)));
    cases.extend(by_both("behind noise", 300, &[&[7, 2, 1, 4, 3], &near[..]].concat(), close(5, 0)));
    cases.extend(by_both("at a place over 16 bits", 300, &[&vec![9; 70_000], &near[..]].concat(), close(70_000, 0)));
    cases.extend(by_both("at an index over 8 bits", 300, &many, close(0, 299)));
    cases.extend(by_both("behind many packets", 300, &[packet(&[FAR]).repeat(5000), near].concat(), close(320_000, 0)));
    cases
}

/// "Every packet of the closed reading."
fn packets() -> Vec<Case> {
    let near = packet(&[NEAR]);
    let broken = broken_around(&mut Random::new(1), near.clone());
    let around = packet_of(&mut Random::new(1), 0, vec![(10, near.clone())]);
    let without = packet_of(&mut Random::new(1), 3, vec![(10, vec![0; 48])]);
    let two = packet(&[NEAR, FAR]);
    let mut cases = Vec::new();
    cases.extend(by_both("no bytes", 1_000_000, b"", NOBODY));
    cases.extend(by_both("no packet", 1_000_000, b"!E0000\r\n\x02\x01\x04\x03", NOBODY));
    cases.extend(by_both("inside a broken packet", 300, &broken, close(48, 0)));
    cases.extend(by_both("behind a broken packet's start", 300, &[&broken[..40], &near].concat(), close(40, 0)));
    cases.extend(by_both("inside a whole packet", 300, &around, NOBODY));
    cases.extend(by_both("behind a whole packet", 300, &[around.clone(), near.clone()].concat(), close(128, 0)));
    cases.extend(by_both("inside a packet that breaks off", 300, &around[..112], close(48, 0)));
    cases.extend(by_both("in a packet that breaks off", 300, &near[..63], NOBODY));
    cases.extend(by_both("before the place where it breaks off", 300, &two[..80], NOBODY));
    // What follows is taken for its padding.
    cases.extend(by_both("completed by what follows", 300, &[&two[..80], &packet(&[FAR])].concat(), close(0, 0)));
    cases.extend(by_both("behind one that breaks off", 300, &[&two[..44], &near].concat(), close(44, 0)));
    cases.extend(by_both("behind packets without points", 300, &[&without, &near[..]].concat(), close(96, 0)));
    cases.extend(by_both("no points", 1_000_000, &without, NOBODY));
    cases.extend(by_both("vital signs", 1_000_000, &vital_signs_packet(1, &[0; 24]), NOBODY));
    cases.extend(by_both("inside vital signs", 300, &vital_signs_packet(2, &near), close(48, 0)));
    cases.extend(by_both("behind vital signs", 300, &[vital_signs_packet(1, &[0; 24]), near].concat(), close(72, 0)));
    cases
}

/// A vital-signs packet with one record.
fn vital_signs_packet(record_type: u32, payload: &[u8]) -> Vec<u8> {
    let length = payload.len() as u32;
    let words = [0x0305_0004, 48 + length, 0x000A_1642, 7, 1234, 99, 1, 0, record_type, length];
    let mut bytes = vec![2, 1, 4, 3, 6, 5, 8, 7];
    bytes.extend(words.iter().flat_map(|word| word.to_le_bytes()));
    bytes.extend(payload);
    bytes
}

/// "As field reading gives them": from the record of type 1.
fn records() -> Vec<Case> {
    let mut cases = Vec::new();
    let second = packet_with(2, &[(10, &[NEAR, NEAR]), (1, &[FAR, NEAR])]);
    cases.extend(by_both("the points come second", 300, &second, close(0, 1)));
    for other in [0, 2, 10, 257, 1 << 16 | 1, 1 << 24 | 1, u32::MAX] {
        cases.extend(by_both("near in another record", 300, &packet_with(1, &[(other, &[NEAR])]), NOBODY));
    }
    cases
}

/// "Each kind of record once" (paper 02 (vii)): a packet with a repeated type does not stand, and its points are not seen.
fn repeated_types() -> Vec<Case> {
    let mut cases = Vec::new();
    let two = |first, second| packet_with(1, &[(1, &[first]), (1, &[second])]);
    cases.extend(by_both("near in the first of two records of type 1", 300, &two(NEAR, FAR), NOBODY));
    cases.extend(by_both("near in the second of two records of type 1", 300, &two(FAR, NEAR), NOBODY));
    cases.extend(by_both("near in both records of type 1", 300, &two(NEAR, NEAR), NOBODY));
    let with = |before, between, after| packet_with(1, &[(before, &[]), (1, &[NEAR]), (between, &[]), (after, &[])]);
    for types in [[10, 10, 1], [2, 10, 2], [10, 5, 5], [4, 10, 8], [8, 10, 4], [0, 4, 8], [0, 8, 4]] {
        let [before, between, after] = types;
        cases.extend(by_both("near beside a repeated type", 300, &with(before, between, after), NOBODY));
    }
    for types in [[10, 10, 10], [0, 0, 0], [257, 33, 257], [2, 3, 5], [4, 12, 5], [1 << 31 | 1, 10, 1 << 16 | 1]] {
        let [before, between, after] = types;
        cases.extend(by_both("near beside types that may repeat", 300, &with(before, between, after), close(0, 0)));
    }
    let near = packet(&[NEAR]);
    let around = packet_of(&mut Random::new(1), 0, vec![(10, near.clone()), (5, Vec::new()), (5, Vec::new())]);
    cases.extend(by_both("inside a packet with a repeated type", 300, &around, close(48, 0)));
    let points_around = packet_of(&mut Random::new(1), 4, vec![(1, near.clone()), (1, near.clone())]);
    cases.extend(by_both("inside its record of type 1", 300, &points_around, close(48, 0)));
    cases.extend(by_both("behind a packet with a repeated type", 300, &[two(NEAR, FAR), near].concat(), close(96, 0)));
    cases
}

/// "1 (unless the dialect is 1), then 3, then 32, then 33 for d over 1,000,000."
fn refusals() -> Vec<Case> {
    let near = packet(&[NEAR]);
    let mut long = near.clone();
    long.resize(MAX_BYTES + 1, 0);
    let longest = &long[..MAX_BYTES];
    let lent: [(&[u8], bool); 4] = [(b"", false), (&near, false), (longest, false), (&long, true)];
    let mut cases = Vec::new();
    for (bytes, too_long) in lent {
        let bytes: Rc<[u8]> = bytes.into();
        for dialect in [0, 1, 2, 3, 16, 257, 1 << 16 | 1, 1 << 31 | 1, u32::MAX] {
            for edition in [0, 1, 2, 3, 257, 1 << 16 | 1, 1 << 31 | 2, u32::MAX] {
                for distance in [300, 1_000_000, 1_000_001, 1 << 31, u32::MAX] {
                    let refusal = match (dialect, edition, distance) {
                        (0 | 2.., ..) => 1,
                        _ if too_long => 3,
                        (_, 0 | 3.., _) => 32,
                        (.., 1_000_001..) => 33,
                        _ => 0,
                    };
                    let answer = match refusal {
                        0 if bytes.is_empty() => NOBODY,
                        0 => close(0, 0),
                        refusal => Closeness { refusal, ..NOBODY },
                    };
                    cases.push(Case { what: "refusals", dialect, edition, distance, bytes: bytes.clone(), answer });
                }
            }
        }
    }
    cases
}

/// All cases.
const CASES: [fn() -> Vec<Case>; 9] =
    [coordinates, halves, distances, refused_coordinates, places, packets, records, repeated_types, refusals];

#[test]
fn the_cases_are_answered() {
    for case in CASES.into_iter().flat_map(|cases| cases()) {
        for (index, subject) in subjects().into_iter().enumerate() {
            let Case { what, dialect, edition, distance, .. } = case;
            let asked = format!("{what}: dialect {dialect}, edition {edition}, distance {distance}, subject {index}");
            assert!(case.is_answered_by(subject), "{asked}: should be {:?}", case.answer);
        }
    }
}

// The runs on readers that are wrong on purpose.

/// What the wrong readers are put together from is right, so that what is found is what their names say.
#[test]
fn the_parts_of_the_wrong_readers_are_right() {
    for (what, part) in RIGHT_PARTS {
        compare_proximity(part, first_seed(), 500).unwrap_or_else(|difference| panic!("{what}: {difference}"));
    }
}

#[test]
fn every_wrong_reader_is_found() {
    let readers = wrong_readers();
    println!("{} wrong readers", readers.len());
    for (what, wrong) in readers {
        compare(&wrong).expect_err(what);
    }
}

#[test]
fn every_wrong_reader_fails_a_case() {
    let cases: Vec<Case> = CASES.into_iter().flat_map(|cases| cases()).collect();
    let readers = wrong_readers();
    let missed = readers.iter().filter(|(_, wrong)| cases.iter().all(|case| case.is_answered_by(wrong)));
    assert_eq!(missed.map(|(what, _)| what).collect::<Vec<_>>(), [&""; 0]);
}
