//! Captures of points near a door, for the question whether anyone is close (paper 02 (vi)).

use super::mmwave::{self, broken_around, bytes_of_points, packet_of, packet_of_points};
use super::packets::{end_of, joined};
use super::random::Random;
use super::{damage, noise, vital_signs};
use crate::judgement::MMWAVE;

/// A few packets of points, among them false and broken ones, packets within packets, packets of vital signs, and noise.
pub fn capture(random: &mut Random) -> Vec<u8> {
    let reach = random.pick(&[2, 70, 200, 600, 5000, 70_000]);
    let pieces = random.within(1, 6);
    (0..pieces).flat_map(|_| piece(random, reach)).collect()
}

fn piece(random: &mut Random, reach: usize) -> Vec<u8> {
    let mut packet = packet_near(random, reach);
    match random.below(24) {
        0..3 => noise(random, MMWAVE),
        3 => vital_signs::packet(random, 256).unwrap_or_default(),
        4 => mmwave::packet(random, 512).unwrap_or_default(),
        5 => packet_of_points(random, &[]),
        // It breaks off.
        6 | 7 => {
            packet.truncate(random.within(1, packet.len() - 1));
            packet
        }
        8 | 9 => {
            damage(random, &mut packet);
            packet
        }
        // A packet as a payload, in one that is bad or whole.
        10 | 11 => broken_around(random, packet),
        12 => packet_of(random, 0, vec![(10, packet)]),
        13 => packet_of(random, 0, vec![(10, packet), (5, Vec::new()), (5, Vec::new())]),
        14 => vital_signs_around(packet),
        _ => packet,
    }
}

/// A vital-signs packet that holds these bytes; its length is not one of an mmWave packet if theirs is.
fn vital_signs_around(inside: Vec<u8>) -> Vec<u8> {
    let records = [(2, inside.len() as u32, inside)];
    joined([0x0305_0004, end_of(&records) as u32, 0x000A_1642, 0, 0, 99, 1, 0], &records)
}

/// A packet of points: mostly a few, with other records in front now and then; or one that is bad, because a known type comes
/// again or 4 stands beside 8.
fn packet_near(random: &mut Random, reach: usize) -> Vec<u8> {
    let count = if random.once_in(24) { random.within(250, 300) } else { random.within(1, 5) };
    let mut points = || bytes_of_points(&(0..count).map(|_| point(random, reach)).collect::<Vec<_>>());
    let (first, second) = (points(), points());
    let records = match random.below(12) {
        0 => vec![(1, first), (1, second)],
        1 => vec![(1, first), (10, Vec::new()), (1, second)],
        2 => vec![(1, first), (5, Vec::new()), (5, Vec::new())],
        3 => vec![(4, Vec::new()), (1, first), (8, Vec::new())],
        4 => vec![(10, second), (1, first)],
        5 => vec![(257, second), (7, vec![0; 4 * count]), (1, first)],
        6 => vec![(10, second.clone()), (0, Vec::new()), (10, second), (1, first), (0, Vec::new())],
        _ => vec![(1, first)],
    };
    packet_of(random, count, records)
}

/// Within reach, in millimetres, in most coordinates.
fn point(random: &mut Random, reach: usize) -> [f32; 4] {
    [(); 4].map(|()| coordinate(random, reach))
}

/// Zero, a half or a whole number of millimetres, or between them; now and then at the limit, or refused.
fn coordinate(random: &mut Random, reach: usize) -> f32 {
    let sign = random.pick(&[1.0f32, -1.0]);
    let magnitude = match random.below(16) {
        0 => random.pick(&[f32::INFINITY, f32::NAN, f32::MAX, 1000.0001, 1001.0]),
        1 => 1000.0,
        2 | 3 => 0.0,
        4..7 => (2 * random.below(reach / 125 + 1) + 1) as f32 / 16.0,
        7..9 => random.below(1000 * reach) as f32 / 1_000_000.0,
        _ => random.within(0, reach) as f32 / 1000.0,
    };
    magnitude.copysign(sign)
}

/// The sample capture of a door, noise before each piece: a packet of points that are each far in one coordinate; one without
/// points; the points at the door, in a packet that is broken; one with a point at half a millimetre; and one of a point at
/// zero that breaks off.
pub fn sample(seed: u64) -> Vec<u8> {
    let random = &mut Random::new(seed);
    let at_door = packet_of_points(random, &AT_DOOR);
    let mut broken_off = packet_of_points(random, &[[0.0; 4]]);
    broken_off.truncate(90);
    let pieces = [
        packet_of_points(random, &PASSING),
        packet_of_points(random, &[]),
        broken_around(random, at_door),
        packet_of_points(random, &AT_A_HALF),
        broken_off,
    ];
    pieces.into_iter().flat_map(|piece| [noise(random, MMWAVE), piece].concat()).collect()
}

/// Each is over half a metre away in one coordinate.
const PASSING: [[f32; 4]; 3] = [[0.75, 0.1, -0.1, 0.5], [-0.25, -0.501, 0.25, 0.0], [0.5, 0.5, 1.5, -0.25]];
/// Two that are refused, and two within half a metre.
const AT_DOOR: [[f32; 4]; 4] =
    [[f32::NAN, 0.1, 0.1, 0.0], [0.2, 1500.0, 0.2, 0.0], [-0.5, 0.3, -0.125, 0.25], [0.25, 0.25, 0.25, 0.0]];
/// 62.5 mm, behind an infinite coordinate.
const AT_A_HALF: [[f32; 4]; 2] = [[0.01, 0.01, f32::INFINITY, 0.0], [0.0625, -0.0625, 0.0625, 0.0]];

#[cfg(test)]
mod tests {
    use super::*;
    use crate::judgement::{judge, Judgement};
    use crate::proximity::every_point;

    #[test]
    fn points_of_every_sort_are_made() {
        let random = &mut Random::new(1);
        let (mut readable, mut zeros, mut at_limit, mut refused) = (0, 0, 0, [0; 2]);
        for _ in 0..500 {
            for located in every_point(1, &capture(random)).unwrap() {
                match located.point {
                    Ok(point) => {
                        readable += 1;
                        zeros += i32::from(point.x == 0);
                        at_limit += i32::from(point.x.abs() == 1_000_000);
                    }
                    Err(refusal) => refused[refusal as usize - 30] += 1,
                }
            }
        }
        assert!(readable > 2000 && zeros > 200 && at_limit > 100, "{readable} {zeros} {at_limit}");
        assert!(refused.iter().all(|&count| count > 100), "{refused:?}");
    }

    #[test]
    fn packets_whose_points_are_seen_and_not_seen_are_made() {
        let random = &mut Random::new(1);
        let (mut seen, mut refused) = (0, 0);
        for _ in 0..600 {
            let bytes = packet_near(random, 600);
            match judge(MMWAVE, &bytes, 0) {
                Ok(Judgement::Whole { length, .. }) if length == bytes.len() => seen += 1,
                Ok(Judgement::Bad { reason: 25 }) => refused += 1,
                other => panic!("{other:?}"),
            }
        }
        assert!(seen > 300 && refused > 150, "{seen} {refused}");
    }

    #[test]
    fn a_broken_packet_is_bad_and_the_one_inside_is_whole() {
        let random = &mut Random::new(1);
        for _ in 0..200 {
            let inside = packet_near(random, 600);
            let points = |bytes: &[u8]| {
                let all = every_point(1, bytes).unwrap().into_iter();
                all.map(|located| located.point).collect::<Vec<_>>()
            };
            assert_eq!(points(&broken_around(random, inside.clone())), points(&inside));
            assert_eq!(points(&packet_of(random, 0, vec![(10, inside)])), []);
        }
    }
}
