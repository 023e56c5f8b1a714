//! The rules of vital-signs packets (paper 02 (i); document 002). The header's places and the walk are in
//! [`crate::packet_rules`].
//!
//! "The same magic and offsets, but offset 28 holds 99, the subframe is 0, there is no padding."

use crate::judgement::Judgement;
use crate::packet_rules::{Lengths, Rules, HEADER_SIZE, MAX_RECORDS, MAX_TOTAL, OBJECT_COUNT, SUBFRAME};

/// Kind 17: a vital-signs packet.
pub const PACKET: u32 = 17;
/// Document 002's "fix number".
pub const FIX_NUMBER: u64 = 99;

/// The type of the vital signs data (document 002, table 3).
pub const VITAL_SIGNS: u32 = 1;
/// The type of the range profile (table 4).
pub const RANGE_PROFILE: u32 = 2;
/// The type of the ADC raw data (table 5).
pub const ADC_DATA: u32 = 3;
/// The type of the system information (table 6).
pub const SYSTEM_INFORMATION: u32 = 4;

/// "Offset 28 holds 99, the subframe is 0, there is no padding (L is exactly the end of the last record ..), K is at most
/// 32. .. K is 0 exactly if L is 40." Any type may repeat: paper 02 (vii) is on dialect 1.
pub const RULES: Rules = Rules {
    kind: PACKET,
    is_legal_total,
    empty_total: HEADER_SIZE as u64,
    most_records: MAX_RECORDS,
    fixed: &[(OBJECT_COUNT, FIX_NUMBER), (SUBFRAME, 0)],
    block: 1,
    is_excluded: |_, _| false,
    lengths: |record_type, _| legal_lengths(record_type),
};

/// Judges the packet at the front of `bytes`.
pub fn judge(bytes: &[u8]) -> Judgement {
    RULES.judge(bytes)
}

/// "At least 40, at most 32,768 .. a multiple of 4 and not 44": four bytes are no record.
pub fn is_legal_total(total: u64) -> bool {
    total.is_multiple_of(4) && (HEADER_SIZE as u64..=MAX_TOTAL).contains(&total) && total != 44
}

/// "Types 1 and 4 have lengths 24 and 20, type 2 a multiple of 4, type 3 a multiple of 16, other types are not legal."
pub fn legal_lengths(record_type: u32) -> Lengths {
    match record_type {
        VITAL_SIGNS => Lengths::Only(24),
        RANGE_PROFILE => Lengths::MultiplesOf(4),
        ADC_DATA => Lengths::MultiplesOf(16),
        SYSTEM_INFORMATION => Lengths::Only(20),
        _ => Lengths::None,
    }
}

#[cfg(test)]
mod tests {
    use super::*;
    use crate::mmwave;
    use crate::packet_rules::MAGIC;

    /// A header of document 002 with these numbers at 12, 28, 32 and 36.
    fn header_of(total: u32, fixed: u32, records: u32, subframe: u32) -> Vec<u8> {
        let mut bytes = MAGIC.to_vec();
        for value in [0x0305_0004, total, 0xA1642, 7, 12_345, fixed, records, subframe] {
            bytes.extend_from_slice(&u32::to_le_bytes(value));
        }
        bytes
    }

    fn header(total: u32, records: u32) -> Vec<u8> {
        header_of(total, 99, records, 0)
    }

    fn with(mut bytes: Vec<u8>, fields: &[u32]) -> Vec<u8> {
        for field in fields {
            bytes.extend_from_slice(&field.to_le_bytes());
        }
        bytes
    }

    fn filled(mut bytes: Vec<u8>, length: usize) -> Vec<u8> {
        bytes.resize(length, 0xEE);
        bytes
    }

    /// A packet with these types and payload lengths, L the end of the last.
    fn packet(records: &[(u32, u32)]) -> Vec<u8> {
        let total = 40 + records.iter().map(|(_, length)| 8 + length).sum::<u32>();
        records.iter().fold(header(total, records.len() as u32), |bytes, &(record_type, length)| {
            let bytes = with(bytes, &[record_type, length]);
            let end = bytes.len() + length as usize;
            filled(bytes, end)
        })
    }

    fn bad(reason: u32) -> Judgement {
        Judgement::Bad { reason }
    }

    fn whole(length: usize) -> Judgement {
        Judgement::Whole { kind: PACKET, length }
    }

    #[test]
    fn the_least_packet_is_its_header() {
        let bytes = header(40, 0);
        for end in 0..40 {
            assert_eq!(judge(&bytes[..end]), Judgement::Waiting);
        }
        assert_eq!(judge(&bytes), whole(40));
        assert_eq!(judge(&filled(bytes, 50)), whole(40));
    }

    #[test]
    fn a_packet_with_all_four_types() {
        let bytes = packet(&[(1, 24), (2, 256), (3, 512), (4, 20)]);
        assert_eq!(bytes.len(), 40 + 32 + 264 + 520 + 28);
        for end in 0..bytes.len() {
            assert_eq!(judge(&bytes[..end]), Judgement::Waiting, "{end}");
        }
        assert_eq!(judge(&bytes), whole(bytes.len()));
    }

    #[test]
    fn total_lengths_at_their_limits() {
        for total in
            [0, 4, 36, 39, 41, 42, 43, 44, 45, 46, 47, 50, 32_766, 32_767, 32_769, 32_772, 1 << 31, u32::MAX - 3]
        {
            let bytes = header_of(total, 0, u32::MAX, 1);
            assert_eq!(judge(&bytes), bad(21), "{total}");
            assert_eq!(judge(&bytes[..16]), bad(21), "{total}");
            assert_eq!(judge(&bytes[..15]), Judgement::Waiting, "{total}");
        }
        assert_eq!(judge(&header(40, 0)), whole(40));
        for total in [48, 52, 56, 60, 64, 32_764, 32_768] {
            assert_eq!(judge(&header(total, 1)), Judgement::Waiting, "{total}");
        }
    }

    #[test]
    fn the_fixed_fields_are_checked_at_their_own_places() {
        for fixed in [0, 1, 98, 100, 99 + 256, 99 << 8, 99 | 1 << 31, u32::MAX] {
            let bytes = header_of(48, fixed, 33, 1);
            for end in 28..32 {
                assert_eq!(judge(&bytes[..end]), Judgement::Waiting);
            }
            assert_eq!(judge(&bytes[..32]), bad(26), "{fixed}");
            assert_eq!(judge(&bytes), bad(26), "{fixed}");
        }
        for subframe in [1, 256, 1 << 24, u32::MAX] {
            let bytes = header_of(48, 99, 1, subframe);
            for end in 32..40 {
                assert_eq!(judge(&bytes[..end]), Judgement::Waiting);
            }
            assert_eq!(judge(&bytes), bad(26), "{subframe}");
            // The record count stands before the subframe.
            assert_eq!(judge(&header_of(48, 99, 2, subframe)), bad(22), "{subframe}");
            assert_eq!(judge(&header_of(48, 98, 1, subframe)), bad(26), "{subframe}");
        }
    }

    #[test]
    fn record_counts_at_their_limits() {
        let wrong =
            [(40, 1), (40, 33), (48, 0), (48, 2), (52, 2), (56, 3), (288, 32), (304, 33), (32_768, 0), (32_768, 33)];
        for (total, records) in wrong.into_iter().chain([(48, 0x2000_0001), (64, u32::MAX)]) {
            let bytes = header(total, records);
            assert_eq!(judge(&bytes[..36]), bad(22), "{total} {records}");
            assert_eq!(judge(&bytes[..35]), Judgement::Waiting, "{total} {records}");
        }
        for (total, records) in [(48, 1), (52, 1), (56, 1), (56, 2), (288, 31), (296, 32), (32_768, 1), (32_768, 32)] {
            assert_eq!(judge(&header(total, records)), Judgement::Waiting, "{total} {records}");
        }
    }

    #[test]
    fn each_type_has_its_lengths() {
        for record_type in 0..12 {
            for length in 0..200u32 {
                let expected = match record_type {
                    1 => length == 24,
                    2 => length % 4 == 0,
                    3 => length % 16 == 0,
                    4 => length == 20,
                    _ => false,
                };
                assert_eq!(legal_lengths(record_type).allow(length.into()), expected, "{record_type} {length}");
                let bytes = packet(&[(record_type, length)]);
                assert_eq!(judge(&bytes) == whole(bytes.len()), expected, "{record_type} {length}");
            }
        }
        for other in [0, 5, 6, 9, 10, 255, 257, 258, 0x0100_0002, u32::MAX] {
            assert_eq!(legal_lengths(other), Lengths::None);
            assert_eq!(judge(&with(header(64, 1), &[other])), bad(23));
            assert_eq!(judge(&with(header(32_768, 32), &[other])), bad(23));
        }
    }

    #[test]
    fn a_type_is_judged_with_the_records_behind_it() {
        // L 72 has room for one record of type 1, L 68 for one of type 4.
        assert_eq!(judge(&with(header(72, 1), &[1])), Judgement::Waiting);
        assert_eq!(judge(&with(header(68, 1), &[4])), Judgement::Waiting);
        for total in [48, 52, 64, 68, 76, 32_768] {
            assert_eq!(judge(&with(header(total, 1), &[1])), bad(23), "{total}");
        }
        for total in [48, 64, 72, 32_768] {
            assert_eq!(judge(&with(header(total, 1), &[4])), bad(23), "{total}");
        }
        // The ADC data as the last record fill L or don't, by sixteens; with one behind them they need not.
        for total in (48..200).step_by(4) {
            let expected = if (total - 48) % 16 == 0 { Judgement::Waiting } else { bad(23) };
            assert_eq!(judge(&with(header(total, 1), &[3])), expected, "{total}");
            assert_eq!(judge(&with(header(total, 1), &[2])), Judgement::Waiting, "{total}");
            let expected = if total < 56 { bad(22) } else { Judgement::Waiting };
            assert_eq!(judge(&with(header(total, 2), &[3])), expected, "{total}");
        }
        // K 2: type 1 takes 32 bytes and leaves 8 for a header or doesn't.
        assert_eq!(judge(&with(header(80, 2), &[1])), Judgement::Waiting);
        assert_eq!(judge(&with(header(76, 2), &[1])), bad(23));
        assert_eq!(judge(&with(header(76, 2), &[4])), Judgement::Waiting);
        assert_eq!(judge(&with(header(72, 2), &[4])), bad(23));
    }

    #[test]
    fn a_length_is_judged_when_its_fourth_byte_is_there() {
        for (fields, total, records) in [
            ([1, 20], 72, 1),
            ([4, 24], 68, 1),
            ([2, 2], 56, 2),
            ([2, 12], 64, 1),
            ([2, 20], 64, 1),
            ([3, 8], 64, 1),
            ([3, 0], 64, 1),
            ([2, 8], 56, 2),
            ([2, 0xFFFF_FFF0], 64, 1),
        ] {
            let bytes = with(header(total, records), &fields);
            for end in 40..48 {
                assert_eq!(judge(&bytes[..end]), Judgement::Waiting, "{fields:?}");
            }
            assert_eq!(judge(&bytes), bad(24), "{fields:?}");
        }
    }

    #[test]
    fn there_is_no_padding() {
        // The records of an mmWave packet end up to 31 bytes before L; here they end at L.
        let bytes = filled(with(header(64, 1), &[2, 12]), 64);
        assert_eq!(judge(&bytes), bad(24));
        assert_eq!(mmwave::judge(&bytes), Judgement::Whole { kind: 16, length: 64 });
        assert_eq!(judge(&header(64, 0)), bad(22));
    }

    #[test]
    fn one_byte_string_can_be_a_packet_of_both_dialects() {
        let bytes = packet(&[(2, 16)]);
        assert_eq!((judge(&bytes), mmwave::judge(&bytes)), (whole(64), Judgement::Whole { kind: 16, length: 64 }));
        let bytes = packet(&[(4, 20), (3, 32), (2, 36)]);
        assert_eq!(bytes.len(), 152);
        assert_eq!((judge(&bytes), mmwave::judge(&bytes)), (whole(152), bad(21)));
        let bytes = packet(&[(4, 20), (3, 32), (2, 44)]);
        assert_eq!((judge(&bytes), mmwave::judge(&bytes)), (whole(160), Judgement::Whole { kind: 16, length: 160 }));
        // Here a type may come again, and there it may not.
        let bytes = packet(&[(4, 20), (3, 32), (2, 24), (2, 12)]);
        assert_eq!((judge(&bytes), mmwave::judge(&bytes)), (whole(160), bad(25)));
        // Type 1 has 24 bytes here and 16 times 99 there.
        let bytes = packet(&[(1, 24), (2, 16)]);
        assert_eq!((judge(&bytes), mmwave::judge(&bytes)), (whole(96), bad(23)));
    }

    #[test]
    fn the_greatest_packets() {
        assert_eq!(judge(&packet(&[(2, 32_720)])), whole(32_768));
        assert_eq!(judge(&packet(&[(3, 32_720)])), whole(32_768));
        assert_eq!(judge(&packet(&[(2, 32_724)])), bad(21));
        assert_eq!(judge(&packet(&[(2, 0); 32])), whole(296));
        assert_eq!(judge(&packet(&[(3, 0); 32])), whole(296));
        assert_eq!(judge(&packet(&[(1, 24); 32])), whole(1064));
        assert_eq!(judge(&packet(&[(2, 0); 33])), bad(22));
    }

    /// Reason 23's sentence taken at its word: try every payload length, and behind it every type with every length.
    fn fits_by_trying(record_type: u32, place: u64, behind: u64, total: u64) -> bool {
        (0..=total)
            .any(|length| legal_lengths(record_type).allow(length) && ends_by_trying(place + 8 + length, behind, total))
    }

    fn ends_by_trying(end: u64, behind: u64, total: u64) -> bool {
        match behind {
            _ if end > total => false,
            0 => end == total,
            _ => (1..=4).any(|record_type| fits_by_trying(record_type, end, behind - 1, total)),
        }
    }

    #[test]
    fn the_fit_is_what_trying_all_lengths_finds() {
        for (total, most_behind) in [(48, 3), (52, 3), (68, 3), (72, 3), (76, 3), (80, 3), (96, 3), (128, 2), (132, 2)]
        {
            for behind in 0..=most_behind {
                // Records start at multiples of 4: all lengths are.
                for place in (40..=total).step_by(4) {
                    for record_type in 0..=6 {
                        assert_eq!(
                            RULES.some_length_fits(legal_lengths(record_type), place, behind, total),
                            fits_by_trying(record_type, place, behind, total),
                            "type {record_type}, place {place}, {behind} behind, L {total}"
                        );
                    }
                }
            }
        }
    }

    #[test]
    fn a_total_and_a_count_are_legal_exactly_if_some_records_fit() {
        const MOST: usize = 400;
        // Where so many records can end, by trying all types and lengths for one more.
        let mut ends: Vec<[bool; MOST + 1]> = vec![[false; MOST + 1]];
        ends[0][40] = true;
        for records in 0..34 {
            let mut next = [false; MOST + 1];
            for start in (0..=MOST).filter(|&start| ends[records][start]) {
                for end in start + 8..=MOST {
                    let length = (end - start - 8) as u64;
                    next[end] |= (1..=4).any(|record_type| legal_lengths(record_type).allow(length));
                }
            }
            ends.push(next);
        }
        for total in 0..=MOST {
            let counts: Vec<u64> = (0..=32).filter(|&records| ends[records as usize][total]).collect();
            assert_eq!(is_legal_total(total as u64), !counts.is_empty(), "{total}");
            if is_legal_total(total as u64) {
                let legal = (0..=34).filter(|&records| RULES.is_legal_count(records, total as u64));
                assert_eq!(legal.collect::<Vec<u64>>(), counts, "{total}");
            }
        }
    }
}
