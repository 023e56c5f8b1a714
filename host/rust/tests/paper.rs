//! The papers' own values: every line of paper 01's "Values at the edges", its listing and its traps; the sentences of
//! paper 02 (i), (ii), (iv) and (vii), one by one.

use radar_reference::judgement::{judge, Judgement, DIALECTS, MMWAVE, SIRAD, VITAL_SIGNS};
use radar_reference::numbers::{accuracy_millimetres, decibels, millimetres, phase_hundredths, EDITIONS};
use radar_reference::packet_rules::MAGIC;
use radar_reference::proximity::anyone_close;
use radar_reference::reading::{closed_reading, open_reading, Reading};
use radar_reference::sirad_fields::{read_status, read_targets, write_targets, Target, Targets};
use radar_reference::{listing, packet};

fn whole(kind: u32, length: usize) -> Result<Judgement, u32> {
    Ok(Judgement::Whole { kind, length })
}

fn bad(reason: u32) -> Result<Judgement, u32> {
    Ok(Judgement::Bad { reason })
}

/// A packet's front: its header with this L and K, then these four-byte fields.
fn packet_front(total: u32, records: u32, fields: &[u32]) -> Vec<u8> {
    let mut bytes = MAGIC.to_vec();
    let header = [0, total, 0, 0, 0, 0, records, 0];
    for field in header.iter().chain(fields) {
        bytes.extend_from_slice(&field.to_le_bytes());
    }
    bytes
}

fn padded(mut bytes: Vec<u8>, length: usize) -> Vec<u8> {
    bytes.resize(length, 0);
    bytes
}

// Values at the edges, line by line; halves by edition 1, the others by both.

#[test]
fn line_1_floats_at_a_half() {
    assert_eq!(millimetres(1, 0x3D80_0000), Ok(63));
    assert_eq!(millimetres(1, 0xBD80_0000), Ok(-63));
}

#[test]
fn line_2_floats_at_a_half_and_minus_zero() {
    assert_eq!(EDITIONS.map(|edition| millimetres(edition, 0x3E40_0000)), [Ok(188); 2]);
    assert_eq!(EDITIONS.map(|edition| millimetres(edition, 0x8000_0000)), [Ok(0); 2]);
}

#[test]
fn line_3_floats_at_the_limit() {
    for edition in EDITIONS {
        assert_eq!(millimetres(edition, 0x447A_0000), Ok(1_000_000));
        assert_eq!(millimetres(edition, 0x447A_0001), Err(31));
        assert_eq!(millimetres(edition, 0x7F80_0000), Err(30));
    }
}

#[test]
fn line_4_char_90() {
    assert_eq!(decibels(90), Ok(-84));
    assert_eq!(phase_hundredths(90), Ok(-8836));
}

#[test]
fn line_5_char_36_as_phase() {
    assert_eq!(phase_hundredths(36), Ok(-17_673));
}

#[test]
fn line_6_accuracy() {
    assert_eq!(accuracy_millimetres(1, 0x0005), Ok(1));
    assert_eq!(EDITIONS.map(|edition| accuracy_millimetres(edition, 0x0205)), [Ok(52); 2]);
    let frame = b"!U0Z00050000000000000000\r\n";
    assert_eq!(read_status(1, frame).unwrap().accuracy_mm, 1);
    let frame = b"!U0Z02050000000000000000\r\n";
    assert_eq!(EDITIONS.map(|edition| read_status(edition, frame).unwrap().accuracy_mm), [52; 2]);
}

#[test]
fn line_7_a_packet_without_records() {
    let bytes = padded(packet_front(64, 0, &[]), 64);
    assert_eq!(judge(MMWAVE, &bytes, 0), whole(16, 64));
    assert_eq!(bytes.len() - packet_front(64, 0, &[]).len(), 24);
}

#[test]
fn line_8_the_last_byte_and_one_more() {
    assert_eq!(judge(MMWAVE, &padded(packet_front(64, 1, &[10, 16]), 64), 0), whole(16, 64));
    assert_eq!(judge(MMWAVE, &padded(packet_front(64, 1, &[10, 17]), 64), 0), bad(24));
    assert_eq!(judge(MMWAVE, &packet_front(64, 1, &[10, 17]), 0), bad(24));
}

#[test]
fn line_9_statistics_do_not_fit_64() {
    assert_eq!(judge(MMWAVE, &packet_front(64, 1, &[6]), 0), bad(23));
}

#[test]
fn line_10_statistics_fit_96() {
    assert_eq!(judge(MMWAVE, &padded(packet_front(96, 1, &[6, 24]), 96), 0), whole(16, 96));
}

#[test]
fn line_11_an_empty_range_frame() {
    assert_eq!(judge(SIRAD, b"!R000000000000\r\n", 0), whole(1, 16));
}

#[test]
fn line_12_an_error_frame_begun() {
    assert_eq!(judge(SIRAD, b"!E00", 0), Ok(Judgement::Waiting));
}

#[test]
fn line_13_empty_input() {
    for dialect in DIALECTS {
        let mut table = [7; 3];
        let none = Reading { rows: 0, skipped: 0, next: 0, state: 0 };
        assert_eq!(open_reading(dialect, b"", &mut table), Ok(none));
        assert_eq!(table, [7; 3]);
    }
}

// The listing.

#[test]
fn the_listing_of_25_bytes() {
    let bytes = b"!E0000\r\n !E00G0\r\n!E0001\r\n";
    assert_eq!(bytes.len(), 25);
    let lines = ["kind\tplace\tlength", "E\t0\t8", "E\t17\t8", "end\t25\t9", ""];
    assert_eq!(listing::listing(SIRAD, bytes), lines.join("\n"));
    assert_eq!(judge(SIRAD, bytes, 9), bad(12));
}

// Traps on this wire.

#[test]
fn trap_a_bad_frames_claimed_length_hides_a_true_frame() {
    let bytes = b"!R001000000000abc!E0001\r\nxyz\r\n";
    let mut table = [0; 9];
    let reading = closed_reading(SIRAD, bytes, &mut table).unwrap();
    assert_eq!(reading, Reading { rows: 1, skipped: 22, next: 30, state: 2 });
    assert_eq!(table[..3], [17, 8, 6]);

    // A packet whose second record is wrong, with a whole packet as its first record's payload.
    let inner = padded(packet_front(64, 0, &[]), 64);
    let mut bytes = packet_front(160, 2, &[10, 64]);
    bytes.extend_from_slice(&inner);
    bytes.extend_from_slice(&6u32.to_le_bytes());
    let bytes = padded(bytes, 160);
    assert_eq!(judge(MMWAVE, &bytes, 0), bad(24));
    let reading = closed_reading(MMWAVE, &bytes, &mut table).unwrap();
    assert_eq!(reading, Reading { rows: 1, skipped: 96, next: 160, state: 2 });
    assert_eq!(table[..3], [48, 64, 16]);
}

#[test]
fn trap_44_as_the_header_length_reads_a_length_as_a_type() {
    // At 40 stands type 10 with length 6; a header of 44 bytes would see type 6, which doesn't fit.
    let bytes = padded(packet_front(64, 1, &[10, 6]), 64);
    assert_eq!(judge(MMWAVE, &bytes, 0), whole(16, 64));
    assert_eq!(packet::record(16, &bytes, 0).unwrap().record_type, 10);
    assert_eq!(packet::record(16, &bytes, 0).unwrap().payload.len(), 6);
}

#[test]
fn trap_truncating_the_phase() {
    assert_eq!(1800 * (36 - 144) / 11, -17_672);
    assert_eq!(phase_hundredths(36), Ok(-17_673));
}

#[test]
fn trap_a_type_judged_by_its_length_field_only() {
    let bytes = packet_front(64, 1, &[6, 24]);
    for end in 44..=48 {
        assert_eq!(judge(MMWAVE, &bytes[..end], 0), bad(23));
    }
    assert_eq!(judge(MMWAVE, &bytes[..43], 0), Ok(Judgement::Waiting));
}

// Paper 02 (i), vital-signs chips, sentence by sentence.

/// A vital-signs packet's front: its header with these numbers at 12, 28, 32 and 36, then these four-byte fields.
fn vital_signs_front([total, fixed, records, subframe]: [u32; 4], fields: &[u32]) -> Vec<u8> {
    let mut bytes = packet_front(total, records, fields);
    bytes[28..32].copy_from_slice(&fixed.to_le_bytes());
    bytes[36..40].copy_from_slice(&subframe.to_le_bytes());
    bytes
}

/// The judgement of a vital-signs packet with this L and K and these four-byte fields, filled up to L.
fn vital_signs(total: u32, records: u32, fields: &[u32]) -> Result<Judgement, u32> {
    let bytes = vital_signs_front([total, 99, records, 0], fields);
    let length = bytes.len().max(total as usize);
    judge(VITAL_SIGNS, &padded(bytes, length), 0)
}

#[test]
fn dialect_2_kind_17() {
    assert_eq!(vital_signs(40, 0, &[]), whole(17, 40));
    assert_eq!(vital_signs(48, 1, &[2, 0]), whole(17, 48));
}

#[test]
fn offset_28_holds_99_and_the_subframe_is_0() {
    for (fixed, subframe) in [(98, 0), (100, 0), (0, 0), (99, 1), (99, 99), (99 << 8, 0), (99, 1 << 31)] {
        assert_eq!(judge(VITAL_SIGNS, &vital_signs_front([40, fixed, 0, subframe], &[]), 0), bad(26));
    }
    // "26 for a wrong 99 or subframe, at its own field": before K the one, behind it the other.
    let both = vital_signs_front([48, 98, 33, 1], &[]);
    assert_eq!(judge(VITAL_SIGNS, &both[..31], 0), Ok(Judgement::Waiting));
    assert_eq!(judge(VITAL_SIGNS, &both[..32], 0), bad(26));
    let count = vital_signs_front([48, 99, 33, 1], &[]);
    assert_eq!(judge(VITAL_SIGNS, &count, 0), bad(22));
    let subframe = vital_signs_front([48, 99, 1, 1], &[7]);
    assert_eq!(judge(VITAL_SIGNS, &subframe[..39], 0), Ok(Judgement::Waiting));
    assert_eq!(judge(VITAL_SIGNS, &subframe, 0), bad(26));
}

#[test]
fn there_is_no_padding() {
    assert_eq!(vital_signs(64, 1, &[2, 16]), whole(17, 64));
    assert_eq!(vital_signs(64, 1, &[2, 12]), bad(24));
    assert_eq!(vital_signs(64, 1, &[2, 20]), bad(24));
    assert_eq!(vital_signs(64, 0, &[]), bad(22));
}

#[test]
fn l_is_at_least_40_and_at_most_32768() {
    assert_eq!(vital_signs(36, 0, &[]), bad(21));
    assert_eq!(vital_signs(32_768, 1, &[2, 32_720]), whole(17, 32_768));
    assert_eq!(vital_signs(32_768, 1, &[3, 32_720]), whole(17, 32_768));
    assert_eq!(vital_signs(32_772, 1, &[2, 32_724]), bad(21));
}

#[test]
fn k_is_at_most_32() {
    assert_eq!(vital_signs(296, 32, &[2, 0].repeat(32)), whole(17, 296));
    assert_eq!(vital_signs(304, 33, &[2, 0].repeat(33)), bad(22));
}

#[test]
fn types_and_their_lengths() {
    assert_eq!(vital_signs(72, 1, &[1, 24]), whole(17, 72));
    assert_eq!(vital_signs(68, 1, &[4, 20]), whole(17, 68));
    assert_eq!(vital_signs(52, 1, &[2, 4]), whole(17, 52));
    assert_eq!(vital_signs(64, 1, &[3, 16]), whole(17, 64));
    assert_eq!(vital_signs(72, 1, &[1, 20]), bad(24));
    assert_eq!(vital_signs(68, 1, &[1, 20]), bad(23));
    assert_eq!(vital_signs(68, 1, &[4, 24]), bad(24));
    assert_eq!(vital_signs(72, 1, &[4, 24]), bad(23));
    assert_eq!(vital_signs(56, 1, &[2, 6]), bad(24));
    assert_eq!(vital_signs(56, 1, &[3, 8]), bad(23));
    assert_eq!(vital_signs(64, 2, &[3, 4]), bad(24));
    for other in [0, 5, 6, 7, 8, 9, 10, 258, u32::MAX] {
        assert_eq!(vital_signs(64, 1, &[other, 16]), bad(23), "{other}");
    }
}

#[test]
fn l_is_a_multiple_of_4_and_not_44() {
    for total in 0..200 {
        let front = vital_signs_front([total, 99, 1, 0], &[]);
        let legal = total >= 40 && total % 4 == 0 && total != 44;
        assert_eq!(
            judge(VITAL_SIGNS, &front[..16], 0),
            if legal { Ok(Judgement::Waiting) } else { bad(21) },
            "{total}"
        );
    }
    assert_eq!(vital_signs(44, 0, &[]), bad(21));
}

#[test]
fn k_is_0_exactly_if_l_is_40() {
    for total in (40..400).step_by(4).filter(|&total| total != 44) {
        for records in 0..40 {
            let front = vital_signs_front([total, 99, records, 0], &[]);
            let legal = records <= 32 && 8 * records <= total - 40 && (records == 0) == (total == 40);
            let expected = if legal { Ok(Judgement::Waiting) } else { bad(22) };
            assert_eq!(judge(VITAL_SIGNS, &front[..36], 0), expected, "{total} {records}");
        }
    }
}

#[test]
fn demand_3_holds_as_for_dialect_1() {
    // A last type 1, 3 or 4 that can't end at L is seen at its type; with a record behind it, it need not end there.
    for (record_type, total) in [(1, 76), (3, 68), (4, 72)] {
        let front = vital_signs_front([total, 99, 1, 0], &[record_type]);
        assert_eq!(judge(VITAL_SIGNS, &front[..43], 0), Ok(Judgement::Waiting));
        assert_eq!(judge(VITAL_SIGNS, &front, 0), bad(23), "{record_type}");
        let front = vital_signs_front([total + 8, 99, 2, 0], &[record_type]);
        assert_eq!(judge(VITAL_SIGNS, &front, 0), Ok(Judgement::Waiting), "{record_type}");
    }
}

#[test]
fn points_stay_with_kind_16_and_the_rest_is_read_of_the_kind_named() {
    let bytes = padded(vital_signs_front([72, 99, 1, 0], &[1, 24]), 72);
    assert_eq!(packet::header(17, &bytes).map(|header| (header.object_count, header.record_count)), Ok((99, 1)));
    assert_eq!(packet::record(17, &bytes, 0).map(|record| record.record_type), Ok(1));
    assert_eq!(packet::step(17, &bytes, 40).map(|(_, behind)| behind), Ok(72));
    assert_eq!(packet::point(1, &bytes, 0), Err(5));
    for kind in [0, 1, 2, 5, 6, 15, 16, 18, u32::MAX] {
        assert_eq!(packet::header(kind, &bytes), Err(5));
        assert_eq!(packet::record(kind, &bytes, 0), Err(5));
        assert_eq!(packet::step(kind, &bytes, 40), Err(5));
    }
}

#[test]
fn refusal_1_admits_2() {
    assert_eq!(judge(2, b"", 0), Ok(Judgement::Waiting));
    assert_eq!(judge(3, b"", 0), Err(1));
    assert_eq!(open_reading(3, b"", &mut []), Err(1));
    assert_eq!(closed_reading(3, b"", &mut []), Err(1));
}

#[test]
fn one_byte_string_is_a_packet_of_both_dialects() {
    let bytes = padded(vital_signs_front([64, 99, 1, 0], &[2, 16]), 64);
    let mut table = [0; 3];
    for (dialect, kind) in [(MMWAVE, 16), (VITAL_SIGNS, 17)] {
        assert_eq!(judge(dialect, &bytes, 0), whole(kind, 64));
        let reading = closed_reading(dialect, &bytes, &mut table);
        assert_eq!(reading, Ok(Reading { rows: 1, skipped: 0, next: 64, state: 2 }));
        assert_eq!(table, [0, 64, kind]);
    }
}

// Paper 02 (ii), sixteen ghosts per frame, sentence by sentence.

/// A T frame with sixteen such blocks.
fn t_frame(block: &[u8; 14]) -> Vec<u8> {
    [b"!T5Z".as_slice(), &block.repeat(16), b"\r\n"].concat()
}

/// The blocks of a T frame.
fn blocks(frame: &[u8]) -> [Target; 16] {
    read_targets(frame).expect("a T frame").blocks
}

const EMPTY: Target = Target { number: 0, empty: 1, distance: 0, magnitude: 0, phase: 0 };

/// The ghost: distance 0 and -126 dB.
const GHOST: Target = Target { number: 0, empty: 0, distance: 0, magnitude: 48, phase: 0 };

#[test]
fn ten_characters_0_and_legal_reserved_bytes_are_an_empty_block() {
    assert_eq!(decibels(b'0'), Ok(-126));
    for block in [b"00000000000000", b"0000000000zzzz", b"0000000000\"\xfe\"\xfe"] {
        assert_eq!(judge(SIRAD, &t_frame(block), 0), whole(4, 230));
        assert_eq!(blocks(&t_frame(block)), [EMPTY; 16]);
    }
    for block in [b"0000000000!000", b"0000000000000\xff", b"000000000000\r0"] {
        assert_eq!(read_targets(&t_frame(block)), Err(5));
    }
    for place in 0..10 {
        let mut block = [b'0'; 14];
        block[place] = b'1';
        assert!(blocks(&t_frame(&block)).iter().all(|block| block.empty == 0 && *block != GHOST), "{place}");
    }
}

#[test]
fn fourteen_bytes_of_value_0_are_an_empty_block() {
    assert_eq!(judge(SIRAD, &t_frame(&[0; 14]), 0), whole(4, 230));
    assert_eq!(blocks(&t_frame(&[0; 14])), [EMPTY; 16]);
}

#[test]
fn a_first_byte_0_commits_the_other_thirteen() {
    for place in 1..14 {
        for byte in 1..=255 {
            let mut block = [0; 14];
            block[place] = byte;
            let frame = t_frame(&block);
            // "Reason 17 at a byte that breaks such a block."
            assert_eq!(judge(SIRAD, &frame[..4 + place], 0), Ok(Judgement::Waiting));
            assert_eq!(judge(SIRAD, &frame[..5 + place], 0), bad(17));
            assert_eq!(judge(SIRAD, &frame, 0), bad(17));
        }
    }
}

#[test]
fn reason_12_no_longer_for_a_first_byte_0() {
    assert_eq!(judge(SIRAD, b"!T5Z\0", 0), Ok(Judgement::Waiting));
    assert_eq!(judge(SIRAD, b"!T5Z\x01", 0), bad(12));
    assert_eq!(judge(SIRAD, b"!T5Z ", 0), bad(12));
    // Anywhere else a byte 0 has the reason that it had.
    let reasons =
        [(2, 12), (3, 13), (5, 12), (8, 12), (9, 13), (10, 12), (13, 12), (14, 13), (17, 13), (228, 14), (229, 14)];
    for (place, reason) in reasons {
        let mut frame = t_frame(b"10200Z80000000");
        frame[place] = 0;
        assert_eq!(judge(SIRAD, &frame[..=place], 0), bad(reason), "{place}");
    }
    for start in [b"!R\0", b"!U\0", b"!E\0"] {
        assert_eq!(judge(SIRAD, start, 0), bad(12));
    }
}

#[test]
fn reading_says_which_blocks_are_empty() {
    let mut frame = t_frame(&[0; 14]);
    frame[18..32].copy_from_slice(b"F1234\"80000000");
    frame[32..46].copy_from_slice(b"0000000000zzzz");
    frame[214..228].copy_from_slice(b"00000100000000");
    let mut expected = [EMPTY; 16];
    expected[1] = Target { number: 15, empty: 0, distance: 0x1234, magnitude: 34, phase: -32_768 };
    expected[15] = Target { magnitude: 49, ..GHOST };
    assert_eq!(blocks(&frame), expected);
}

#[test]
fn a_round_trip_turns_the_second_form_into_the_first() {
    let mut output = [0; 230];
    for block in [[0; 14], [b'0'; 14], *b"0000000000zzzz"] {
        assert_eq!(write_targets(&read_targets(&t_frame(&block)).unwrap(), &mut output), Ok(230));
        assert_eq!(output.as_slice(), t_frame(&[b'0'; 14]));
    }
    let target = t_frame(b"000010000000zz");
    assert_eq!(write_targets(&read_targets(&target).unwrap(), &mut output), Ok(230));
    assert_eq!(output.as_slice(), t_frame(b"00001000000000"));
}

#[test]
fn refusal_54_after_50_and_before_51() {
    let mut targets = Targets { format: 5, gain: 90, blocks: [EMPTY; 16] };
    let write = |targets: &Targets, room: usize| write_targets(targets, &mut [0; 230][..room]);
    assert_eq!((write(&targets, 230), write(&targets, 229)), (Ok(230), Err(51)));
    targets.blocks[3] = GHOST;
    assert_eq!((write(&targets, 230), write(&targets, 229)), (Err(54), Err(54)));
    targets.blocks[15].empty = 2;
    assert_eq!((write(&targets, 230), write(&targets, 229)), (Err(50), Err(50)));
    targets.blocks[15].empty = 1;
    targets.blocks[3].phase = 1;
    assert_eq!((write(&targets, 230), write(&targets, 229)), (Ok(230), Err(51)));
}

// Paper 02 (iv), half a millimetre, edition two, sentence by sentence.

/// A packet of one point, and of no record of type 1 if `record_type` is another.
fn packet_of_a_point(record_type: u32, coordinates: [f32; 3]) -> Vec<u8> {
    let [x, y, z] = coordinates.map(f32::to_bits);
    let mut bytes = padded(packet_front(64, 1, &[record_type, 16, x, y, z, 7]), 64);
    bytes[28] = 1;
    bytes
}

/// The coordinates of its point.
fn point_of(edition: u32, coordinates: [f32; 3]) -> Result<[i32; 3], u32> {
    let point = packet::point(edition, &packet_of_a_point(1, coordinates), 0)?;
    assert_eq!(point.doppler, 7);
    Ok([point.x, point.y, point.z])
}

/// The accuracy in millimetres of a U frame.
fn accuracy_of(edition: u32, tenths: u32) -> Result<u32, u32> {
    let status = read_status(edition, format!("!U0Z{tenths:04X}0000000000000000\r\n").as_bytes())?;
    assert_eq!(status.accuracy, tenths);
    Ok(status.accuracy_mm)
}

#[test]
fn from_edition_2_halves_go_to_the_even_neighbour() {
    let answers = [0.0625f32, 0.1875, -0.0625, -0.1875].map(|metres| millimetres(2, metres.to_bits()));
    assert_eq!(answers, [Ok(62), Ok(188), Ok(-62), Ok(-188)]);
    assert_eq!([5, 15, 25, 35].map(|tenths| accuracy_millimetres(2, tenths)), [Ok(0), Ok(2), Ok(2), Ok(4)]);
}

#[test]
fn edition_1_stays() {
    let answers = [0.0625f32, 0.1875, -0.0625, -0.1875].map(|metres| millimetres(1, metres.to_bits()));
    assert_eq!(answers, [Ok(63), Ok(188), Ok(-63), Ok(-188)]);
    assert_eq!([5, 15, 25, 35].map(|tenths| accuracy_millimetres(1, tenths)), [Ok(1), Ok(2), Ok(3), Ok(4)]);
}

#[test]
fn whoever_calls_them_passes_the_edition_on() {
    assert_eq!(point_of(1, [0.0625, -0.0625, 0.3125]), Ok([63, -63, 313]));
    assert_eq!(point_of(2, [0.0625, -0.0625, 0.3125]), Ok([62, -62, 312]));
    assert_eq!(EDITIONS.map(|edition| accuracy_of(edition, 25)), [Ok(3), Ok(2)]);
}

#[test]
fn they_differ_only_at_exact_halves() {
    let mut halves = 0;
    for bits in (0..1000f32.to_bits()).step_by(1 << 10) {
        let exact = f64::from(f32::from_bits(bits)) * 1000.0;
        let [first, second] = EDITIONS.map(|edition| millimetres(edition, bits).unwrap());
        // Of a whole number and a half, the one beyond is odd if the one before is even.
        let differ = exact.fract() == 0.5 && exact.trunc() % 2.0 == 0.0;
        assert_eq!(first - second, i32::from(differ), "{bits:08X}");
        halves += i32::from(differ);
    }
    assert_eq!(halves, 4000);
}

#[test]
fn refusal_32_before_30_and_31_and_after_5_7_6() {
    let (far, infinite) = (1000.5, f32::INFINITY);
    for edition in [0, 3, 4, 255, 257, 1 << 31, u32::MAX] {
        for metres in [0.0625, far, infinite] {
            assert_eq!(millimetres(edition, f32::to_bits(metres)), Err(32));
            assert_eq!(point_of(edition, [metres, 0.0, 0.0]), Err(32));
        }
        assert_eq!(accuracy_millimetres(edition, 5), Err(32));
        assert_eq!(accuracy_of(edition, 5), Err(32));
        let packet = packet_of_a_point(1, [infinite; 3]);
        assert_eq!(packet::point(edition, &packet, 1), Err(6));
        assert_eq!(packet::point(edition, &packet_of_a_point(10, [infinite; 3]), 1), Err(7));
        assert_eq!(packet::point(edition, &packet[..63], 0), Err(5));
        assert_eq!(read_status(edition, b"!U0Z00050000000000000000\r"), Err(5));
    }
    assert_eq!(EDITIONS.map(|edition| point_of(edition, [0.0, far, infinite])), [Err(31); 2]);
    assert_eq!(EDITIONS.map(|edition| point_of(edition, [infinite, far, 0.0])), [Err(30); 2]);
}

// Paper 02 (vii), each kind of record once, sentence by sentence.

/// A packet's front with two objects and this L and K, then records of these types and payload lengths.
fn front_of_records(total: u32, count: u32, records: &[(u32, u32)]) -> Vec<u8> {
    let mut bytes = packet_front(total, count, &[]);
    bytes[28] = 2;
    for &(record_type, length) in records {
        bytes.extend([record_type, length].iter().flat_map(|field| field.to_le_bytes()));
        bytes.resize(bytes.len() + length as usize, 0);
    }
    bytes
}

/// A packet of two objects with records of these types, each of a legal length.
fn packet_of_types(types: &[u32]) -> Vec<u8> {
    let length = |record_type| match record_type {
        1 => 32,
        6 => 24,
        9 => 28,
        _ => 8,
    };
    let records: Vec<(u32, u32)> = types.iter().map(|&record_type| (record_type, length(record_type))).collect();
    let end = 40 + records.iter().map(|(_, length)| 8 + length).sum::<u32>();
    let total = end.next_multiple_of(32);
    padded(front_of_records(total, types.len() as u32, &records), total as usize)
}

fn of_types(types: &[u32]) -> Result<Judgement, u32> {
    judge(MMWAVE, &packet_of_types(types), 0)
}

/// Whole, as one that is all of its bytes.
fn is_whole(types: &[u32]) -> bool {
    of_types(types) == whole(16, packet_of_types(types).len())
}

#[test]
fn a_known_type_that_occurs_again_is_refused() {
    for first in 1..=9 {
        assert!(is_whole(&[first]));
        for second in 1..=9 {
            let refused = first == second || [first, second] == [4, 8] || [first, second] == [8, 4];
            for types in [&[first, second][..], &[first, 0, second], &[77, first, 10, 10, second, 77]] {
                assert_eq!(of_types(types) == bad(25), refused, "{types:?}");
                assert_eq!(is_whole(types), !refused, "{types:?}");
            }
        }
    }
}

#[test]
fn type_8_with_4_present_or_4_with_8_is_refused() {
    for (first, second) in [(4, 8), (8, 4)] {
        let others = [1, 2, 3, 5, 6, 7, 9];
        assert!(is_whole(&[&[first], &others[..]].concat()));
        assert!(is_whole(&[&others[..], &[second]].concat()));
        assert_eq!(of_types(&[&[first], &others[..], &[second]].concat()), bad(25));
        assert_eq!(of_types(&[&others[..], &[first, second]].concat()), bad(25));
    }
}

#[test]
fn types_outside_1_to_9_may_repeat() {
    let look_alikes = (4..32).flat_map(|bit| (0..=9).map(move |known| known | 1 << bit));
    for free in [0, 10, 11, 12, 15, 255, u32::MAX - 1, u32::MAX].into_iter().chain(look_alikes) {
        assert!(is_whole(&[free, free, free]), "{free}");
        // Nor does it count as the known type whose bits it has.
        for known in [1, 4, 8, 9] {
            assert!(is_whole(&[free, known, free]), "{free} {known}");
            assert_eq!(of_types(&[known, free, known]), bad(25), "{free} {known}");
        }
    }
    assert!(is_whole(&[0; 32]) && is_whole(&[u32::MAX; 32]));
}

#[test]
fn it_is_refused_in_dialect_1_alone() {
    let lengths = [24, 8, 16, 20];
    for (first, second) in (0..16).map(|number| (number / 4, number % 4)) {
        let [a, b] = [first, second].map(|index| lengths[index]);
        let fields = |record_type: usize, length: u32| {
            let words = [record_type as u32 + 1, length].map(u32::to_le_bytes);
            [words.as_flattened(), &vec![0; length as usize]].concat()
        };
        let front = vital_signs_front([56 + a + b, 99, 2, 0], &[]);
        let bytes = [front, fields(first, a), fields(second, b)].concat();
        assert_eq!(judge(VITAL_SIGNS, &bytes, 0), whole(17, bytes.len()), "{first} {second}");
        for end in 40..bytes.len() {
            assert_eq!(judge(VITAL_SIGNS, &bytes[..end], 0), Ok(Judgement::Waiting), "{first} {second} {end}");
        }
    }
    // The lengths are legal in both dialects, and L is.
    for (record_type, first, second) in [(2, 0, 8), (2, 12, 28), (4, 20, 20)] {
        let total = 56 + first + second;
        let payload = vec![0; first as usize / 4];
        let fields = [&[record_type, first], &payload[..], &[record_type, second]].concat();
        let bytes = padded(vital_signs_front([total, 99, 2, 0], &fields), total as usize);
        assert_eq!(judge(VITAL_SIGNS, &bytes, 0), whole(17, total as usize), "{record_type}");
        assert_eq!(judge(MMWAVE, &bytes, 0), bad(25), "{record_type}");
    }
}

#[test]
fn a_free_type_can_always_fill_the_rest() {
    // All types that go together, then one more record: no known type is left for it.
    let known = [(1, 32), (2, 8), (3, 8), (4, 8), (5, 8), (6, 24), (7, 8), (9, 28)];
    let end = 40 + known.iter().map(|(_, length)| 8 + length).sum::<u32>();
    for total in [256, 1024, 32_768] {
        let front = front_of_records(total, 9, &known);
        assert_eq!(front.len(), end as usize);
        for end in 0..=front.len() {
            assert_eq!(judge(MMWAVE, &front[..end], 0), Ok(Judgement::Waiting), "{total} {end}");
        }
        for free in [0, 10, u32::MAX] {
            let record = [free, total - end - 8].map(u32::to_le_bytes);
            let bytes = padded([&front[..], record.as_flattened()].concat(), total as usize);
            assert_eq!(judge(MMWAVE, &bytes, 0), whole(16, total as usize));
        }
        for again in 1..=9u32 {
            assert_eq!(judge(MMWAVE, &[&front[..], &again.to_le_bytes()].concat(), 0), bad(25), "{again}");
        }
    }
}

#[test]
fn refusal_25_is_seen_at_the_type_field_before_23() {
    // A second record that could not fit either, and one that could.
    for (record_type, length, total) in [(6, 24, 96), (1, 32, 96), (9, 28, 96), (6, 24, 512), (2, 8, 64), (4, 8, 96)] {
        let front = front_of_records(total, 2, &[(record_type, length)]);
        let type_at = front.len();
        let bytes = [&front[..], &record_type.to_le_bytes(), &[0xFF; 4]].concat();
        for end in 40..type_at + 4 {
            assert_eq!(judge(MMWAVE, &bytes[..end], 0), Ok(Judgement::Waiting), "{record_type} {end}");
        }
        for end in type_at + 4..=bytes.len() {
            assert_eq!(judge(MMWAVE, &bytes[..end], 0), bad(25), "{record_type} {end}");
        }
    }
    // A fresh type that can't fit has 23, as the repeated one would have.
    for (first, fresh) in [((6, 24), 9), ((9, 28), 6), ((6, 24), 1), ((2, 24), 6)] {
        let front = front_of_records(96, 2, &[first]);
        assert_eq!(judge(MMWAVE, &[&front[..], &u32::to_le_bytes(fresh)].concat(), 0), bad(23), "{fresh}");
    }
}

#[test]
fn what_is_checked_before_it_comes_first() {
    // The record count, and a record's length, each with a type that would come again behind it.
    assert_eq!(judge(MMWAVE, &padded(packet_front(64, 4, &[10, 0, 2, 0]), 64), 0), bad(22));
    assert_eq!(judge(MMWAVE, &padded(packet_front(96, 2, &[2, 1, 2, 2]), 96), 0), bad(24));
    assert_eq!(judge(MMWAVE, &padded(packet_front(96, 3, &[2, 0, 3, 1, 2, 0]), 96), 0), bad(24));
    // The first record's type, which has no legal length without objects.
    assert_eq!(judge(MMWAVE, &padded(packet_front(96, 2, &[1, 0, 1, 0]), 96), 0), bad(23));
    assert_eq!(judge(MMWAVE, &padded(packet_front(96, 2, &[2, 0, 2, 1]), 96), 0), bad(25));
}

#[test]
fn a_refused_packet_is_refused_everywhere() {
    let two = packet_of_types(&[1, 1]);
    let one = packet_of_types(&[10, 1, 10]);
    assert_eq!((two.len(), one.len()), (128, 128));
    let both = [&two[..], &one].concat();
    let mut table = [0; 6];
    let reading = Reading { rows: 1, skipped: 128, next: 256, state: 0 };
    assert_eq!(open_reading(MMWAVE, &both, &mut table), Ok(reading));
    assert_eq!(table, [128, 128, 16, 0, 0, 0]);
    assert_eq!(closed_reading(MMWAVE, &both, &mut table), Ok(Reading { state: 2, ..reading }));
    assert_eq!(packet::header(16, &two), Err(5));
    assert_eq!(packet::record(16, &two, 0), Err(5));
    assert_eq!(packet::step(16, &two, 40), Err(5));
    assert_eq!(packet::point(1, &two, 0), Err(5));
    assert_eq!(packet::point(1, &one, 1).map(|point| point.x), Ok(0));
    // "The desk counted riders twice": the points of a packet with two records of them are not seen at all.
    assert_eq!(anyone_close(MMWAVE, 1, 0, &two), Ok(None));
    let close = anyone_close(MMWAVE, 1, 0, &both).unwrap().expect("the second packet has points");
    assert_eq!((close.place, close.index), (128, 0));
}
