//! SiRad frames one by one, with the paper's values: what each writer must write or refuse, and what each reader must answer.
//!
//! The reader is asked, and the library if `VQ_LIB_DIR` names the directory that holds `libvellanquor.a`.

use radar_reference::abi::fields::{DataFrame, ErrorFrame, FieldSubject, StatusFrame, Target, TargetFrame, Written};
use radar_reference::abi::{Centidegrees, Reference, Subject};
use radar_reference::generate::floats::wrong_editions;
use radar_reference::numbers::EDITIONS;

/// The bytes that stand in an output before it is written.
const FILLER: u8 = 170;

/// A quotation mark, the last character and a letter.
const EDGES: &[u8] = &[34, 254, 90];

fn subjects() -> Vec<&'static dyn FieldSubject> {
    vec![
        &Reference,
        #[cfg(gateway_linked)]
        &radar_reference::gateway::Gateway,
    ]
}

/// A writer into an output of this size must write exactly this frame, or refuse and change nothing.
fn assert_written(room: usize, expected: Result<&[u8], u32>, write: impl Fn(&dyn FieldSubject, &mut [u8]) -> Written) {
    for subject in subjects() {
        let mut output = vec![FILLER; room];
        let answer = write(subject, &mut output);
        let mut after = vec![FILLER; room];
        match expected {
            Ok(frame) => {
                assert_eq!(answer, Written { refusal: 0, size: frame.len() as u64 });
                after[..frame.len()].copy_from_slice(frame);
            }
            Err(refusal) => assert_eq!(answer, Written { refusal, size: 0 }),
        }
        assert_eq!(output, after);
    }
}

/// What the four readers refuse with, R, P and C first; U by edition 1.
fn refusals(subject: &dyn FieldSubject, frame: &[u8]) -> [u32; 4] {
    [
        subject.read_data(frame).refusal,
        subject.read_targets(frame).refusal,
        subject.read_status(1, frame).refusal,
        subject.read_error(frame).refusal,
    ]
}

/// Only the reader at this index takes the frame, and none takes it cut, begun late, or with a byte behind it.
fn assert_one_frame(frame: &[u8], reader: usize) {
    let longer = [frame, &[FILLER]].concat();
    for subject in subjects() {
        let mut only = [5; 4];
        only[reader] = 0;
        assert_eq!(refusals(subject, frame), only, "{frame:?}");
        for other in [&frame[..frame.len() - 1], &frame[1..], &longer] {
            assert_eq!(refusals(subject, other), [5; 4], "{other:?}");
        }
    }
}

/// The frame is written into an output of its size and into a longer one, one byte less is 51, and it is read back.
fn data_case(kind: u32, content: &[u8], frame: &[u8]) {
    for room in [frame.len(), frame.len() + 2] {
        assert_written(room, Ok(frame), |subject, output| subject.write_data(output, kind, content));
    }
    assert_written(frame.len() - 1, Err(51), |subject, output| subject.write_data(output, kind, content));
    for subject in subjects() {
        let size = content.len() as u64;
        assert_eq!(subject.read_data(frame), DataFrame { refusal: 0, kind, start: 14, size });
    }
    assert_eq!(&frame[14..14 + content.len()], content);
    assert_one_frame(frame, 0);
}

fn refused_data(kind: u32, content: &[u8], room: usize, refusal: u32) {
    assert_written(room, Err(refusal), |subject, output| subject.write_data(output, kind, content));
}

#[test]
fn data() {
    data_case(1, b"", b"!R000000000000\r\n");
    data_case(2, EDGES, b"!P000300000000\"\xFEZ\r\n");
    data_case(3, EDGES, b"!C000300000000\"\xFEZ\r\n");
    let most = [b'Z'; 65_535];
    data_case(3, &most, &[&b"!CFFFF00000000"[..], &most, b"\r\n"].concat());
}

#[test]
fn data_refused() {
    for room in [40, 3] {
        refused_data(1, &[34, 33], room, 50);
        refused_data(2, &[255], room, 50);
        refused_data(1, &[b'!'; 65_536], room, 52);
        for kind in [0, 4, u32::MAX] {
            refused_data(kind, b"Z", room, 53);
            refused_data(kind, &[255], room, 53);
            refused_data(kind, &[b'!'; 65_536], room, 53);
        }
    }
}

#[test]
fn data_read() {
    for subject in subjects() {
        let whole = DataFrame { refusal: 0, kind: 1, start: 14, size: 2 };
        assert_eq!(subject.read_data(b"!R0002abcdefgh\"Z\r\n"), whole);
        assert_eq!(subject.read_data(b"!R0002abcd fgh\"Z\r\n"), DataFrame { refusal: 5, ..DataFrame::default() });
    }
}

#[test]
fn phases_of_a_frame() {
    let frame = b"!P000700000000\"$Z\x8F\x90\x91\xFE\r\n";
    let phases = [-18_000, -17_673, -8_836, -164, 0, 164, 18_000];
    let numbers: Vec<&dyn Subject> = vec![
        &Reference,
        #[cfg(gateway_linked)]
        &radar_reference::gateway::Gateway,
    ];
    for (fields, numbers) in subjects().into_iter().zip(numbers) {
        assert_eq!(fields.read_data(frame), DataFrame { refusal: 0, kind: 2, start: 14, size: 7 });
        for (&character, value) in frame[14..21].iter().zip(phases) {
            assert_eq!(numbers.centidegrees(character), Centidegrees { refusal: 0, value });
        }
        for other in [0, 10, 13, 32, 33, 255] {
            assert_eq!(numbers.centidegrees(other), Centidegrees { refusal: 50, value: 0 });
        }
    }
}

/// A T frame whose first blocks hold the ends of all ranges, and whose last is this one.
fn targets_of(format: u8, gain: u8, last: Target) -> TargetFrame {
    let mut targets = [Target { number: 5, empty: 0, distance: 512, magnitude: 90, phase: 100 }; 16];
    targets[0] = Target { number: 15, empty: 0, distance: 65_535, magnitude: 254, phase: -32_768 };
    targets[1] = Target { number: 0, empty: 0, distance: 0, magnitude: 34, phase: -1 };
    targets[15] = last;
    TargetFrame { refusal: 0, format, gain, targets }
}

/// A last block at distance 1234 in hex.
fn last(number: u8, magnitude: u8, phase: i16) -> Target {
    Target { number, empty: 0, distance: 0x1234, magnitude, phase }
}

fn targets_case(fields: TargetFrame, start: &[u8], block: &[u8]) {
    let mut frame = [start, b"FFFFF\xFE80000000", b"00000\"FFFF0000"].concat();
    (0..13).for_each(|_| frame.extend(b"50200Z00640000"));
    frame.extend([block, b"\r\n"].concat());
    for room in [230, 232] {
        assert_written(room, Ok(&frame), |subject, output| subject.write_targets(output, fields));
    }
    assert_written(229, Err(51), |subject, output| subject.write_targets(output, fields));
    for subject in subjects() {
        assert_eq!(subject.read_targets(&frame), fields);
    }
    assert_one_frame(&frame, 1);
}

#[test]
fn targets() {
    targets_case(targets_of(0, 34, last(0, 34, 32_767)), b"!T0\"", b"01234\"7FFF0000");
    targets_case(targets_of(15, 254, last(15, 254, 0)), b"!TF\xFE", b"F1234\xFE00000000");
    targets_case(targets_of(5, 90, last(9, 90, -32_768)), b"!T5Z", b"91234Z80000000");
    targets_case(targets_of(10, 90, last(10, 91, -1)), b"!TAZ", b"A1234[FFFF0000");
}

#[test]
fn targets_refused() {
    let refused = [
        targets_of(16, 90, last(1, 90, 1)),
        targets_of(255, 90, last(1, 90, 1)),
        targets_of(5, 33, last(1, 90, 1)),
        targets_of(5, 255, last(1, 90, 1)),
        targets_of(5, 90, last(16, 90, 1)),
        targets_of(5, 90, last(1, 33, 1)),
        targets_of(5, 90, last(1, 255, 1)),
    ];
    for fields in refused {
        for room in [230, 229] {
            assert_written(room, Err(50), |subject, output| subject.write_targets(output, fields));
        }
    }
}

/// What is read of an empty block.
const EMPTY: Target = Target { number: 0, empty: 1, distance: 0, magnitude: 0, phase: 0 };

/// A target whose written block would be all `0`.
const ALL_ZERO: Target = Target { number: 0, empty: 0, distance: 0, magnitude: 48, phase: 0 };

/// A T frame with these blocks behind two targets, as bytes.
fn frame_with(rest: &[[u8; 14]; 14]) -> Vec<u8> {
    [b"!T5Z10200Z00640000", b"20400Z80000000".as_slice(), rest.as_flattened(), b"\r\n"].concat()
}

/// The same as fields.
fn fields_with(rest: [Target; 14]) -> TargetFrame {
    let mut targets = [EMPTY; 16];
    targets[0] = Target { number: 1, empty: 0, distance: 512, magnitude: 90, phase: 100 };
    targets[1] = Target { number: 2, empty: 0, distance: 1024, magnitude: 90, phase: -32_768 };
    targets[2..].copy_from_slice(&rest);
    TargetFrame { refusal: 0, format: 5, gain: 90, targets }
}

fn read_as(frame: &[u8], fields: TargetFrame) {
    for subject in subjects() {
        assert_eq!(subject.read_targets(frame), fields, "{frame:?}");
    }
}

fn refused_targets(fields: TargetFrame, room: usize, refusal: u32) {
    assert_written(room, Err(refusal), |subject, output| subject.write_targets(output, fields));
}

#[test]
fn empty_blocks() {
    let written = frame_with(&[[b'0'; 14]; 14]);
    let fields = fields_with([EMPTY; 14]);
    let mut mixed = [[0; 14]; 14];
    mixed[..3].copy_from_slice(&[*b"0000000000\"zZ\xFE", [b'0'; 14], *b"0000000000\xFE\"00"]);
    for rest in [[[b'0'; 14]; 14], [[0; 14]; 14], mixed] {
        let frame = frame_with(&rest);
        read_as(&frame, fields);
        assert_one_frame(&frame, 1);
    }
    // Whichever form was read, this is what is written of it.
    for room in [230, 232] {
        assert_written(room, Ok(&written), |subject, output| subject.write_targets(output, fields));
    }
    refused_targets(fields, 229, 51);
    let all = [b"!T5Z".as_slice(), &[0; 224], b"\r\n"].concat();
    let fields = TargetFrame { targets: [EMPTY; 16], ..fields };
    read_as(&all, fields);
    let written = [b"!T5Z".as_slice(), &[b'0'; 224], b"\r\n"].concat();
    assert_written(230, Ok(&written), |subject, output| subject.write_targets(output, fields));
}

/// Each of the ten bytes makes a target if it is another digit or character, and so does a target behind empty blocks.
#[test]
fn blocks_that_are_not_quite_empty() {
    let targets = [
        (b"10000000000000", Target { number: 1, ..ALL_ZERO }),
        (b"01000000000000", Target { distance: 0x1000, ..ALL_ZERO }),
        (b"00100000000000", Target { distance: 0x0100, ..ALL_ZERO }),
        (b"00010000000000", Target { distance: 0x0010, ..ALL_ZERO }),
        (b"00001000000000", Target { distance: 1, ..ALL_ZERO }),
        (b"00000/00000000", Target { magnitude: 47, ..ALL_ZERO }),
        (b"00000100000000", Target { magnitude: 49, ..ALL_ZERO }),
        (b"00000080000000", Target { phase: -32_768, ..ALL_ZERO }),
        (b"00000001000000", Target { phase: 0x0100, ..ALL_ZERO }),
        (b"00000000100000", Target { phase: 0x0010, ..ALL_ZERO }),
        (b"00000000010000", Target { phase: 1, ..ALL_ZERO }),
    ];
    for (bytes, target) in targets {
        let (mut rest, mut fields) = ([[0; 14]; 14], [EMPTY; 14]);
        (rest[13], fields[13]) = (*bytes, target);
        read_as(&frame_with(&rest), fields_with(fields));
        rest[..13].fill([b'0'; 14]);
        assert_written(230, Ok(&frame_with(&rest)), |subject, output| {
            subject.write_targets(output, fields_with(fields))
        });
    }
}

#[test]
fn broken_empty_blocks() {
    let refused = TargetFrame { refusal: 5, ..TargetFrame::default() };
    for place in 0..14 {
        for block in [[0; 14], [b'0'; 14]] {
            let mut rest = [block; 14];
            rest[6][place] = if block[0] == 0 { b'0' } else { 0 };
            read_as(&frame_with(&rest), refused);
        }
    }
}

/// "An empty block carries no other value": whatever its fields hold, it is written as `0`.
#[test]
fn empty_blocks_with_other_fields() {
    let others = [
        EMPTY,
        Target { empty: 1, ..ALL_ZERO },
        Target { number: 3, empty: 1, distance: 77, magnitude: 90, phase: -5 },
        Target { number: 16, ..EMPTY },
        Target { number: 255, empty: 1, distance: 65_535, magnitude: 255, phase: -1 },
        Target { magnitude: 33, ..EMPTY },
    ];
    for other in others {
        assert_written(230, Ok(&frame_with(&[[b'0'; 14]; 14])), |subject, output| {
            subject.write_targets(output, fields_with([other; 14]))
        });
        refused_targets(fields_with([other; 14]), 229, 51);
    }
}

/// Every 50 of the whole frame goes before 54, and 54 before 51.
#[test]
fn refusals_of_empty_blocks() {
    let with = |index: usize, target: Target, fields: TargetFrame| {
        let mut targets = fields.targets;
        targets[index] = target;
        TargetFrame { targets, ..fields }
    };
    let fields = fields_with([EMPTY; 14]);
    for room in [232, 230, 229, 0] {
        for empty in [2, 3, 48, 128, 255] {
            refused_targets(with(7, Target { empty, ..fields.targets[0] }, fields), room, 50);
            refused_targets(with(7, Target { empty, ..EMPTY }, fields), room, 50);
        }
        for index in [0, 1, 2, 15] {
            refused_targets(with(index, ALL_ZERO, fields), room, 54);
        }
        let all_zero = with(5, ALL_ZERO, fields);
        refused_targets(TargetFrame { format: 16, ..all_zero }, room, 50);
        refused_targets(TargetFrame { gain: 33, ..all_zero }, room, 50);
        for index in [4, 6] {
            refused_targets(with(index, Target { empty: 2, ..ALL_ZERO }, all_zero), room, 50);
            refused_targets(with(index, Target { number: 16, ..ALL_ZERO }, all_zero), room, 50);
            refused_targets(with(index, Target { magnitude: 0, ..ALL_ZERO }, all_zero), room, 50);
            refused_targets(with(index, Target { number: 16, empty: 1, ..ALL_ZERO }, all_zero), room, 54);
        }
    }
    // A target as if read from an empty block has no magnitude.
    refused_targets(with(2, Target::default(), fields), 230, 50);
}

/// A U frame with max range 1234, ramp time 5678 and bandwidth 9ABC in hex.
fn status_of(format: u8, gain: u8, accuracy: u16, accuracy_mm: u16, time_difference: u16) -> StatusFrame {
    let (max_range, ramp_time, bandwidth) = (0x1234, 0x5678, 0x9ABC);
    StatusFrame { refusal: 0, format, gain, accuracy, accuracy_mm, max_range, ramp_time, bandwidth, time_difference }
}

/// The frame that these fields are written as, and that they are read from by an edition.
fn status_case(edition: u32, fields: StatusFrame, frame: &[u8]) {
    for room in [26, 29] {
        assert_written(room, Ok(frame), |subject, output| subject.write_status(output, fields));
    }
    assert_written(25, Err(51), |subject, output| subject.write_status(output, fields));
    for subject in subjects() {
        assert_eq!(subject.read_status(edition, frame), fields);
    }
    assert_one_frame(frame, 2);
}

#[test]
fn status() {
    status_case(1, status_of(0, 34, 5, 1, 0), b"!U0\"0005123456789ABC0000\r\n");
    status_case(2, status_of(0, 34, 5, 0, 0), b"!U0\"0005123456789ABC0000\r\n");
    for edition in EDITIONS {
        status_case(edition, status_of(15, 254, 0x205, 52, 0xFFFF), b"!UF\xFE0205123456789ABCFFFF\r\n");
        status_case(edition, status_of(5, 90, 4, 0, 1), b"!U5Z0004123456789ABC0001\r\n");
        status_case(edition, status_of(5, 90, 6, 1, 1), b"!U5Z0006123456789ABC0001\r\n");
        status_case(edition, status_of(5, 90, 15, 2, 1), b"!U5Z000F123456789ABC0001\r\n");
        status_case(edition, status_of(5, 90, 0xFFFF, 6554, 0xDEAD), b"!U5ZFFFF123456789ABCDEAD\r\n");
    }
    status_case(1, status_of(5, 90, 25, 3, 1), b"!U5Z0019123456789ABC0001\r\n");
    status_case(2, status_of(5, 90, 25, 2, 1), b"!U5Z0019123456789ABC0001\r\n");
    for fields in [status_of(16, 90, 5, 1, 1), status_of(5, 33, 5, 1, 1), status_of(5, 255, 5, 1, 1)] {
        for room in [26, 25] {
            assert_written(room, Err(50), |subject, output| subject.write_status(output, fields));
        }
    }
}

#[test]
fn status_by_another_edition() {
    let frame = b"!U5Z0019123456789ABC0001\r\n";
    let refused = |refusal| StatusFrame { refusal, ..StatusFrame::default() };
    for edition in wrong_editions() {
        for subject in subjects() {
            assert_eq!(subject.read_status(edition, frame), refused(32), "{edition}");
            for none in [&frame[..25], &frame[1..], b"!E0000\r\n", b""] {
                assert_eq!(subject.read_status(edition, none), refused(5), "{edition}, {none:?}");
            }
        }
    }
}

#[test]
fn status_as_documented() {
    let all = 0x200;
    let fields = StatusFrame {
        refusal: 0,
        format: 5,
        gain: b'Z',
        accuracy: all,
        accuracy_mm: 51,
        max_range: all,
        ramp_time: all,
        bandwidth: all,
        time_difference: all,
    };
    for subject in subjects() {
        for edition in EDITIONS {
            assert_eq!(subject.read_status(edition, b"!U5Z02000200020002000200\r\n"), fields);
        }
    }
}

fn error_case(flags: u16, frame: &[u8]) {
    for room in [8, 12] {
        assert_written(room, Ok(frame), |subject, output| subject.write_error(output, flags));
    }
    assert_written(7, Err(51), |subject, output| subject.write_error(output, flags));
    for subject in subjects() {
        assert_eq!(subject.read_error(frame), ErrorFrame { refusal: 0, flags });
    }
    assert_one_frame(frame, 3);
}

#[test]
fn error() {
    error_case(0, b"!E0000\r\n");
    error_case(0x0200, b"!E0200\r\n");
    error_case(0xABCD, b"!EABCD\r\n");
    error_case(0xFFFF, b"!EFFFF\r\n");
    for subject in subjects() {
        for none in [&b"!E00a0\r\n"[..], b""] {
            assert_eq!(subject.read_error(none), ErrorFrame { refusal: 5, flags: 0 });
        }
    }
}

/// Each byte of a frame of each kind replaced by bytes in and about every class: the library reads what the reader reads.
#[test]
fn damaged() {
    const VALUES: [u8; 15] = [0, 10, 13, 32, 33, 34, 48, 57, 58, 65, 70, 71, 97, 254, 255];
    let targets = targets_of(0, 34, last(0, 34, 32_767));
    let mut frame_of_targets = [0; 230];
    assert_eq!(Reference.write_targets(&mut frame_of_targets, targets).refusal, 0);
    let frames: [&[u8]; 7] = [
        b"!R000000000000\r\n",
        b"!C000300000000\"\xFEZ\r\n",
        &frame_of_targets,
        &frame_with(&[[b'0'; 14]; 14]),
        &frame_with(&[[0; 14]; 14]),
        b"!U0\"0005123456789ABC0000\r\n",
        b"!EABCD\r\n",
    ];
    for frame in frames {
        let (mut taken, mut refused) = (0, 0);
        for (place, value) in (0..frame.len()).flat_map(|place| VALUES.map(|value| (place, value))) {
            let mut bytes = frame.to_vec();
            bytes[place] = value;
            for subject in subjects() {
                assert_eq!(subject.read_data(&bytes), Reference.read_data(&bytes), "{bytes:?}");
                assert_eq!(subject.read_targets(&bytes), Reference.read_targets(&bytes), "{bytes:?}");
                for edition in 0..4 {
                    let expected = Reference.read_status(edition, &bytes);
                    assert_eq!(subject.read_status(edition, &bytes), expected, "{edition}, {bytes:?}");
                }
                assert_eq!(subject.read_error(&bytes), Reference.read_error(&bytes), "{bytes:?}");
            }
            match refusals(&Reference, &bytes).contains(&0) {
                true => taken += 1,
                false => refused += 1,
            }
        }
        assert!(taken > 0 && refused > 0, "{frame:?}");
    }
}
