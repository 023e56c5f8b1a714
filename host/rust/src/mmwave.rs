//! The rules of mmWave packets (paper 01, "The three wires" and "Judging a place"; paper 02 (vii); document 004). The header's
//! places and the walk are in [`crate::packet_rules`].

use crate::judgement::Judgement;
use crate::packet_rules::{Lengths, Rules, MAX_RECORDS, MAX_TOTAL};

/// Kind 16: a packet.
pub const PACKET: u32 = 16;
/// L is a multiple of this.
pub const PADDING: u64 = 32;
/// The least L.
pub const MIN_TOTAL: u64 = 64;

/// The type of the record that holds the detected points.
pub const POINTS: u32 = 1;
/// The bytes of a point.
pub const POINT_SIZE: u64 = 16;

/// "L is a multiple of 32 from 64 to 32,768; K is at most 32. .. L is the smallest multiple of 32 not below e."
pub const RULES: Rules = Rules {
    kind: PACKET,
    is_legal_total,
    empty_total: MIN_TOTAL,
    most_records: MAX_RECORDS,
    fixed: &[],
    block: PADDING,
    is_excluded,
    lengths: legal_lengths,
};

/// Judges the packet at the front of `bytes`.
pub fn judge(bytes: &[u8]) -> Judgement {
    RULES.judge(bytes)
}

/// "L is a multiple of 32 from 64 to 32,768."
pub fn is_legal_total(total: u64) -> bool {
    total.is_multiple_of(PADDING) && (MIN_TOTAL..=MAX_TOTAL).contains(&total)
}

/// "A known type (1 to 9) that occurs again, or type 8 with 4 present, or 4 with 8, is refused in dialect 1. Types outside 1 to
/// 9 may repeat" (paper 02 (vii)).
pub fn is_excluded(record_type: u32, types_before: &[u32]) -> bool {
    let present = |other: u32| types_before.contains(&other);
    let occurs_again = is_known(record_type) && present(record_type);
    occurs_again || (record_type == 8 && present(4)) || (record_type == 4 && present(8))
}

/// "A known type (1 to 9)."
pub fn is_known(record_type: u32) -> bool {
    (1..=9).contains(&record_type)
}

/// "Type 1 is 16N and N is not 0; type 7 is 4N and N is not 0; 2, 3, 5 even; 4, 8 a multiple of 4; 6 is 24; 9 is 28; all
/// other types free."
pub fn legal_lengths(record_type: u32, objects: u64) -> Lengths {
    match record_type {
        1 | 7 if objects == 0 => Lengths::None,
        1 => Lengths::Only(16 * objects),
        7 => Lengths::Only(4 * objects),
        2 | 3 | 5 => Lengths::MultiplesOf(2),
        4 | 8 => Lengths::MultiplesOf(4),
        6 => Lengths::Only(24),
        9 => Lengths::Only(28),
        _ => Lengths::MultiplesOf(1),
    }
}

#[cfg(test)]
mod tests {
    use super::*;
    use crate::packet_rules::{HEADER_SIZE, MAGIC};

    fn header(total: u32, objects: u32, records: u32) -> Vec<u8> {
        let mut bytes = MAGIC.to_vec();
        for value in [0x0306_0000, total, 0xA6843, 7, 99, objects, records, 0] {
            bytes.extend_from_slice(&u32::to_le_bytes(value));
        }
        bytes
    }

    fn with(mut bytes: Vec<u8>, fields: &[u32]) -> Vec<u8> {
        for field in fields {
            bytes.extend_from_slice(&field.to_le_bytes());
        }
        bytes
    }

    fn padded(mut bytes: Vec<u8>, length: usize) -> Vec<u8> {
        bytes.resize(length, 0xEE);
        bytes
    }

    fn bad(reason: u32) -> Judgement {
        Judgement::Bad { reason }
    }

    fn whole(length: usize) -> Judgement {
        Judgement::Whole { kind: PACKET, length }
    }

    #[test]
    fn the_header_has_40_bytes() {
        assert_eq!(header(64, 0, 0).len(), HEADER_SIZE);
    }

    #[test]
    fn the_magic_is_judged_byte_by_byte() {
        for end in 0..8 {
            assert_eq!(judge(&MAGIC[..end]), Judgement::Waiting);
            let mut wrong = MAGIC[..=end].to_vec();
            wrong[end] ^= 1;
            assert_eq!(judge(&wrong), bad(20));
        }
        assert_eq!(judge(&MAGIC), Judgement::Waiting);
    }

    #[test]
    fn a_field_waits_for_its_fourth_byte() {
        let illegal = header(u32::MAX, u32::MAX, u32::MAX);
        for end in 8..16 {
            assert_eq!(judge(&illegal[..end]), Judgement::Waiting);
        }
        assert_eq!(judge(&illegal[..16]), bad(21));
        let illegal = header(64, u32::MAX, u32::MAX);
        for end in 8..36 {
            assert_eq!(judge(&illegal[..end]), Judgement::Waiting);
        }
        assert_eq!(judge(&illegal[..36]), bad(22));
        let illegal = with(header(64, 0, 1), &[6, u32::MAX]);
        for end in 8..44 {
            assert_eq!(judge(&illegal[..end]), Judgement::Waiting);
        }
        assert_eq!(judge(&illegal[..44]), bad(23));
        let illegal = with(header(64, 0, 1), &[10, u32::MAX]);
        for end in 8..48 {
            assert_eq!(judge(&illegal[..end]), Judgement::Waiting);
        }
        assert_eq!(judge(&illegal[..48]), bad(24));
    }

    #[test]
    fn total_lengths_at_their_limits() {
        for total in [0, 1, 31, 32, 63, 65, 80, 32_767, 32_769, 32_800, 0x8000_0040, u32::MAX - 31] {
            assert_eq!(judge(&header(total, 0, 0)), bad(21), "{total}");
        }
        for total in [64, 96, 32_736, 32_768] {
            assert_eq!(judge(&header(total, 0, 1)), Judgement::Waiting, "{total}");
        }
    }

    #[test]
    fn record_counts_at_their_limits() {
        for (total, records) in [(64, 4), (64, 33), (96, 0), (96, 8), (32_768, 33), (32_768, 0), (64, 0x2000_0001)] {
            assert_eq!(judge(&header(total, 0, records)), bad(22), "{total} {records}");
        }
        for (total, records) in [(64, 0), (64, 3), (96, 7), (288, 31), (320, 32), (32_768, 32), (32_768, 1)] {
            assert_eq!(judge(&header(total, 0, records)), Judgement::Waiting, "{total} {records}");
        }
    }

    #[test]
    fn products_do_not_wrap() {
        // 16N and 4N are 0 and 16 in 32 bits here.
        for objects in [0x1000_0000, 0x1000_0001, 0x4000_0000] {
            assert_eq!(judge(&with(header(64, objects, 1), &[1])), bad(23));
        }
        assert_eq!(judge(&with(header(64, 0x4000_0000, 1), &[7])), bad(23));
        assert_eq!(judge(&with(header(64, 0x4000_0004, 1), &[7])), bad(23));
        for length in [0xFFFF_FFF8, 0xFFFF_FFFF, 0xFFFF_FFD0] {
            assert_eq!(judge(&with(header(64, 0, 1), &[10, length])), bad(24));
        }
    }

    #[test]
    fn each_type_has_its_lengths() {
        let fits = |record_type: u32, objects: u32, total: u32, length: u32| {
            let bytes = with(header(total, objects, 1), &[record_type, length]);
            judge(&padded(bytes, total as usize))
        };
        assert_eq!(fits(1, 1, 64, 16), whole(64));
        assert_eq!(fits(1, 1, 64, 15), bad(24));
        assert_eq!(fits(1, 0, 64, 0), bad(23));
        assert_eq!(fits(1, 2, 64, 32), bad(23));
        assert_eq!(fits(1, 2, 96, 32), whole(96));
        assert_eq!(fits(7, 0, 64, 0), bad(23));
        assert_eq!(fits(7, 1, 64, 4), whole(64));
        assert_eq!(fits(7, 4, 64, 16), whole(64));
        assert_eq!(fits(7, 5, 64, 20), bad(23));
        for even in [2, 3, 5] {
            assert_eq!(fits(even, 0, 64, 14), whole(64));
            assert_eq!(fits(even, 0, 64, 15), bad(24));
        }
        for by_four in [4, 8] {
            assert_eq!(fits(by_four, 0, 64, 12), whole(64));
            assert_eq!(fits(by_four, 0, 64, 14), bad(24));
        }
        assert_eq!(fits(9, 0, 64, 28), bad(23));
        assert_eq!(fits(9, 0, 96, 28), whole(96));
        assert_eq!(fits(9, 0, 96, 24), bad(24));
        for free in [0, 10, 11, 255, 256, 1 << 24, u32::MAX] {
            assert_eq!(fits(free, 0, 64, 13), whole(64));
        }
    }

    #[test]
    fn the_end_is_within_the_last_32_bytes() {
        // L 96, one free record: e = 48 + length has to be 65 to 96.
        for length in 0..=60 {
            let bytes = padded(with(header(96, 0, 1), &[10, length]), 96);
            let expected = if (17..=48).contains(&length) { whole(96) } else { bad(24) };
            assert_eq!(judge(&bytes), expected, "{length}");
        }
    }

    #[test]
    fn a_type_is_judged_with_the_records_behind_it() {
        // L 96, K 2: type 9 takes 36 bytes and leaves 20 for the second record; types 6 and 9 take 68 of 56 bytes.
        assert_eq!(judge(&with(header(96, 0, 2), &[9])), Judgement::Waiting);
        assert_eq!(judge(&with(header(96, 0, 2), &[6])), Judgement::Waiting);
        assert_eq!(judge(&with(header(96, 0, 3), &[9])), Judgement::Waiting);
        assert_eq!(judge(&with(header(96, 0, 4), &[9])), bad(23));
        let first = padded(with(header(96, 0, 2), &[6, 24]), 72);
        assert_eq!(judge(&with(first.clone(), &[9])), bad(23));
        assert_eq!(judge(&with(first.clone(), &[2])), Judgement::Waiting);
        assert_eq!(judge(&padded(with(first, &[2, 14]), 96)), whole(96));
    }

    /// A packet with these types and payload lengths, L what they ask for.
    fn of_types(objects: u32, records: &[(u32, u32)]) -> Vec<u8> {
        let end = 40 + records.iter().map(|(_, length)| 8 + length).sum::<u32>();
        let total = end.next_multiple_of(32);
        let bytes = records.iter().fold(header(total, objects, records.len() as u32), |bytes, &(kind, length)| {
            let bytes = with(bytes, &[kind, length]);
            let behind = bytes.len() + length as usize;
            padded(bytes, behind)
        });
        padded(bytes, total as usize)
    }

    /// A legal payload length of each type, with two objects.
    fn some_length(record_type: u32) -> u32 {
        [5, 32, 2, 4, 8, 6, 24, 8, 12, 28].get(record_type as usize).copied().unwrap_or(3)
    }

    #[test]
    fn each_known_type_comes_once() {
        for first in 0..13 {
            for second in 0..13 {
                let bytes = of_types(2, &[first, 10, second, 11].map(|kind| (kind, some_length(kind))));
                let repeated = first == second && (1..=9).contains(&first);
                let expected =
                    if repeated || [(4, 8), (8, 4)].contains(&(first, second)) { bad(25) } else { whole(bytes.len()) };
                assert_eq!(judge(&bytes), expected, "{first} {second}");
            }
        }
        let all = [1, 2, 3, 4, 5, 6, 7, 9].map(|kind| (kind, some_length(kind)));
        assert_eq!(judge(&of_types(2, &all)), whole(224));
        for again in 1..=9 {
            let bytes = of_types(2, &[&all[..], &[(0, 1), (again, some_length(again))]].concat());
            assert_eq!(judge(&bytes), bad(25), "{again}");
        }
    }

    #[test]
    fn other_types_come_again() {
        for free in [0, 10, 11, 16, 255, 256, 1 << 31, u32::MAX].into_iter().chain((4..32).map(|bit| 1 | 1 << bit)) {
            assert_eq!(judge(&of_types(1, &[(free, 3), (1, 16), (free, 5)])), whole(96), "{free}");
            assert_eq!(judge(&of_types(1, &[(1, 16), (free, 3), (1, 16)])), bad(25), "{free}");
        }
        assert_eq!(judge(&of_types(0, &[(10, 0); 32])), whole(320));
        assert_eq!(judge(&of_types(0, &[[(0, 0); 30].as_slice(), &[(5, 0), (5, 0)]].concat())), bad(25));
    }

    #[test]
    fn a_repeated_type_is_seen_at_its_field_before_the_fit() {
        // L 96, K 2: a second type 6 can't fit either; a second type 2 fits.
        for (known, length) in [(6, 24), (2, 24)] {
            let first = padded(with(header(96, 0, 2), &[known, length]), 72);
            let bytes = with(first, &[known, u32::MAX]);
            for end in 48..76 {
                assert_eq!(judge(&bytes[..end]), Judgement::Waiting, "{known} {end}");
            }
            for end in 76..=80 {
                assert_eq!(judge(&bytes[..end]), bad(25), "{known} {end}");
            }
        }
        // The length of a record before it comes first, and so does its type.
        assert_eq!(judge(&padded(with(header(96, 0, 2), &[2, 3, 2, 2]), 96)), bad(24));
        assert_eq!(judge(&padded(with(header(96, 0, 2), &[1, 0, 1, 0]), 96)), bad(23));
    }

    #[test]
    fn a_payload_waits_until_the_packet_is_there() {
        let packet = padded(with(header(64, 0, 1), &[10, 16]), 64);
        for end in 48..64 {
            assert_eq!(judge(&packet[..end]), Judgement::Waiting);
        }
        assert_eq!(judge(&packet), whole(64));
        let with_more = padded(packet, 200);
        assert_eq!(judge(&with_more), whole(64));
    }

    #[test]
    fn the_greatest_packet() {
        let packet = padded(with(header(32_768, 0, 1), &[10, 32_720]), 32_768);
        assert_eq!(judge(&packet), whole(32_768));
        let mut records = header(320, 0, 32);
        for _ in 0..32 {
            records = with(records, &[10, 0]);
        }
        assert_eq!(judge(&padded(records, 320)), whole(320));
    }

    /// Reason 23's sentence taken at its word: try every payload length, and behind it every type with every length.
    fn fits_by_trying(record_type: u32, objects: u64, place: u64, behind: u64, total: u64) -> bool {
        (0..=total).any(|length| {
            legal_lengths(record_type, objects).allow(length)
                && ends_by_trying(objects, place + 8 + length, behind, total)
        })
    }

    fn ends_by_trying(objects: u64, end: u64, behind: u64, total: u64) -> bool {
        if end > total {
            return false;
        }
        if behind == 0 {
            // The smallest multiple of 32 not below the end, by counting up.
            return (end..).find(|multiple| multiple % 32 == 0) == Some(total);
        }
        (0..=10).any(|record_type| fits_by_trying(record_type, objects, end, behind - 1, total))
    }

    #[test]
    fn the_fit_is_what_trying_all_lengths_finds() {
        for (total, most_behind) in [(64u64, 3), (96, 3), (128, 2)] {
            for objects in [0u64, 1, 2, 3, 5, 0x1000_0000] {
                for behind in 0..=most_behind {
                    for place in 40..=total {
                        for record_type in 0..=10 {
                            let legal = legal_lengths(record_type, objects);
                            assert_eq!(
                                RULES.some_length_fits(legal, place, behind, total),
                                fits_by_trying(record_type, objects, place, behind, total),
                                "type {record_type}, N {objects}, place {place}, {behind} behind, L {total}"
                            );
                        }
                    }
                }
            }
        }
    }

    #[test]
    fn the_legal_lengths_are_those_of_the_paper() {
        for objects in 0..40u64 {
            for length in 0..700u64 {
                let allowed = |record_type| legal_lengths(record_type, objects).allow(length);
                assert_eq!(allowed(1), objects != 0 && length == 16 * objects);
                assert_eq!(allowed(7), objects != 0 && length == 4 * objects);
                assert_eq!([2, 3, 5].map(allowed), [length % 2 == 0; 3]);
                assert_eq!([4, 8].map(allowed), [length % 4 == 0; 2]);
                assert_eq!(allowed(6), length == 24);
                assert_eq!(allowed(9), length == 28);
                assert_eq!([0, 10, 77, u32::MAX].map(allowed), [true; 4]);
            }
        }
    }
}
