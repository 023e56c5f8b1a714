//! The answers on fields and commands in their C form, and what has that face.

use crate::demorad::{self, MAX_PAYLOAD};
use crate::packet;
use crate::refusal::{Refusal, NOT_ONE_FRAME, NO_ENCODING};
use crate::sirad::{BLOCKS, CFAR, RANGE};
use crate::sirad_fields;

use super::Reference;

/// `struct vq_header`.
#[repr(C)]
#[derive(Clone, Copy, Debug, Default, PartialEq, Eq)]
#[allow(missing_docs)]
pub struct Header {
    pub refusal: u32,
    pub version: u32,
    pub total: u32,
    pub platform: u32,
    pub frame: u32,
    pub time: u32,
    pub objects: u32,
    pub records: u32,
    pub subframe: u32,
}

/// `struct vq_record`: the payload is the part of the packet from `start` on, `length` bytes.
#[repr(C)]
#[derive(Clone, Copy, Debug, Default, PartialEq, Eq)]
#[allow(missing_docs)]
pub struct Record {
    pub refusal: u32,
    pub tag: u32,
    pub start: u64,
    pub length: u64,
}

/// `struct vq_step`: a record and the place behind it; on a refusal the place stays.
#[repr(C)]
#[derive(Clone, Copy, Debug, Default, PartialEq, Eq)]
#[allow(missing_docs)]
pub struct Step {
    pub refusal: u32,
    pub tag: u32,
    pub start: u64,
    pub length: u64,
    pub next: u64,
}

/// `struct vq_point`.
#[repr(C)]
#[derive(Clone, Copy, Debug, Default, PartialEq, Eq)]
#[allow(missing_docs)]
pub struct Point {
    pub refusal: u32,
    pub x: i32,
    pub y: i32,
    pub z: i32,
    pub doppler: u32,
}

/// `struct vq_command`: RD is 0 or 1; a host may hand over any number.
#[repr(C)]
#[derive(Clone, Copy, Debug, Default, PartialEq, Eq)]
#[allow(missing_docs)]
pub struct Command {
    pub refusal: u32,
    pub rd: u32,
    pub code: u32,
    pub count: u32,
    pub words: [u32; MAX_PAYLOAD],
}

/// `struct vq_data_frame`: the characters are the part of the frame from `start` on, `size` bytes.
#[repr(C)]
#[derive(Clone, Copy, Debug, Default, PartialEq, Eq)]
#[allow(missing_docs)]
pub struct DataFrame {
    pub refusal: u32,
    pub kind: u32,
    pub start: u64,
    pub size: u64,
}

/// `struct vq_target`: `empty` is 1 for an empty block, whose other fields are 0, and 0 for a target; a host may hand over
/// any number.
#[repr(C)]
#[derive(Clone, Copy, Debug, Default, PartialEq, Eq)]
#[allow(missing_docs)]
pub struct Target {
    pub number: u8,
    pub empty: u8,
    pub distance: u16,
    pub magnitude: u8,
    pub phase: i16,
}

/// `struct vq_target_frame`.
#[repr(C)]
#[derive(Clone, Copy, Debug, Default, PartialEq, Eq)]
#[allow(missing_docs)]
pub struct TargetFrame {
    pub refusal: u32,
    pub format: u8,
    pub gain: u8,
    pub targets: [Target; BLOCKS],
}

/// `struct vq_status_frame`.
#[repr(C)]
#[derive(Clone, Copy, Debug, Default, PartialEq, Eq)]
#[allow(missing_docs)]
pub struct StatusFrame {
    pub refusal: u32,
    pub format: u8,
    pub gain: u8,
    pub accuracy: u16,
    pub accuracy_mm: u16,
    pub max_range: u16,
    pub ramp_time: u16,
    pub bandwidth: u16,
    pub time_difference: u16,
}

/// `struct vq_error_frame`.
#[repr(C)]
#[derive(Clone, Copy, Debug, Default, PartialEq, Eq)]
#[allow(missing_docs)]
pub struct ErrorFrame {
    pub refusal: u32,
    pub flags: u16,
}

/// `struct vq_written`: what a writer answers.
#[repr(C)]
#[derive(Clone, Copy, Debug, Default, PartialEq, Eq)]
#[allow(missing_docs)]
pub struct Written {
    pub refusal: u32,
    pub size: u64,
}

/// What can be compared: the readers and writers of fields and commands. A writer is handed a frame or command whose refusal
/// (and, in a U frame, whose accuracy in millimetres) counts for nothing.
#[allow(missing_docs)]
pub trait FieldSubject {
    fn header(&self, kind: u32, packet: &[u8]) -> Header;
    fn record(&self, kind: u32, packet: &[u8], index: usize) -> Record;
    fn step(&self, kind: u32, packet: &[u8], place: usize) -> Step;
    fn point(&self, edition: u32, packet: &[u8], index: usize) -> Point;
    fn read_command(&self, bytes: &[u8]) -> Command;
    fn write_command(&self, output: &mut [u8], command: Command) -> Written;
    fn read_data(&self, frame: &[u8]) -> DataFrame;
    fn read_targets(&self, frame: &[u8]) -> TargetFrame;
    fn read_status(&self, edition: u32, frame: &[u8]) -> StatusFrame;
    fn read_error(&self, frame: &[u8]) -> ErrorFrame;
    fn write_data(&self, output: &mut [u8], kind: u32, content: &[u8]) -> Written;
    fn write_targets(&self, output: &mut [u8], frame: TargetFrame) -> Written;
    fn write_status(&self, output: &mut [u8], status: StatusFrame) -> Written;
    fn write_error(&self, output: &mut [u8], flags: u16) -> Written;
}

/// The answer, or the one that has this refusal and is 0 throughout.
fn either<T>(answer: Result<T, Refusal>, refused: fn(Refusal) -> T) -> T {
    answer.unwrap_or_else(refused)
}

/// Where a part of a slice starts.
fn start_of(part: &[u8], whole: &[u8]) -> u64 {
    (part.as_ptr() as usize - whole.as_ptr() as usize) as u64
}

/// An index as the reader takes it; no count is as great as the greatest.
fn index_of(index: usize) -> u32 {
    u32::try_from(index).unwrap_or(u32::MAX)
}

fn narrow<T: TryFrom<u32>>(value: u32) -> T {
    T::try_from(value).ok().expect("a field of the wire fits its type")
}

fn written(answer: Result<usize, Refusal>) -> Written {
    let answer = answer.map(|size| Written { refusal: 0, size: size as u64 });
    either(answer, |refusal| Written { refusal, size: 0 })
}

impl FieldSubject for Reference {
    fn header(&self, kind: u32, packet: &[u8]) -> Header {
        let answer = packet::header(kind, packet).map(|header| Header {
            refusal: 0,
            version: header.version,
            total: header.total_length,
            platform: header.platform,
            frame: header.frame_number,
            time: header.time,
            objects: header.object_count,
            records: header.record_count,
            subframe: header.subframe,
        });
        either(answer, |refusal| Header { refusal, ..Header::default() })
    }

    fn record(&self, kind: u32, packet: &[u8], index: usize) -> Record {
        let answer = packet::record(kind, packet, index_of(index)).map(|record| Record {
            refusal: 0,
            tag: record.record_type,
            start: start_of(record.payload, packet),
            length: record.payload.len() as u64,
        });
        either(answer, |refusal| Record { refusal, ..Record::default() })
    }

    fn step(&self, kind: u32, packet: &[u8], place: usize) -> Step {
        match packet::step(kind, packet, place) {
            Ok((record, behind)) => Step {
                refusal: 0,
                tag: record.record_type,
                start: start_of(record.payload, packet),
                length: record.payload.len() as u64,
                next: behind as u64,
            },
            Err(refusal) => Step { refusal, next: place as u64, ..Step::default() },
        }
    }

    fn point(&self, edition: u32, packet: &[u8], index: usize) -> Point {
        let answer = packet::point(edition, packet, index_of(index)).map(|point| Point {
            refusal: 0,
            x: point.x,
            y: point.y,
            z: point.z,
            doppler: point.doppler,
        });
        either(answer, |refusal| Point { refusal, ..Point::default() })
    }

    fn read_command(&self, bytes: &[u8]) -> Command {
        let answer = demorad::read(bytes).map(|command| Command {
            refusal: 0,
            rd: u32::from(command.rd),
            code: command.code,
            count: command.count as u32,
            words: command.words,
        });
        either(answer, |refusal| Command { refusal, ..Command::default() })
    }

    fn write_command(&self, output: &mut [u8], command: Command) -> Written {
        let Command { rd, code, count, words, .. } = command;
        let command = demorad::Command { rd: rd == 1, code, count: count as usize, words };
        // Any other RD has no encoding; 44, 45 and 46 go before it and need no output, 51 behind it.
        written(match rd {
            0 | 1 => demorad::write(&command, output),
            _ => demorad::write(&command, &mut [0; 4 * (MAX_PAYLOAD + 1)]).and(Err(NO_ENCODING)),
        })
    }

    fn read_data(&self, frame: &[u8]) -> DataFrame {
        let found = (RANGE..=CFAR).find_map(|kind| Some((kind, sirad_fields::read_data(kind, frame).ok()?)));
        let answer = found.ok_or(NOT_ONE_FRAME).map(|(kind, data)| DataFrame {
            refusal: 0,
            kind,
            start: start_of(data, frame),
            size: data.len() as u64,
        });
        either(answer, |refusal| DataFrame { refusal, ..DataFrame::default() })
    }

    fn read_targets(&self, frame: &[u8]) -> TargetFrame {
        let answer = sirad_fields::read_targets(frame).map(|targets| TargetFrame {
            refusal: 0,
            format: narrow(targets.format),
            gain: narrow(targets.gain),
            targets: targets.blocks.map(|block| Target {
                number: narrow(block.number),
                empty: narrow(block.empty),
                distance: narrow(block.distance),
                magnitude: narrow(block.magnitude),
                phase: i16::try_from(block.phase).expect("a phase has 16 bits"),
            }),
        });
        either(answer, |refusal| TargetFrame { refusal, ..TargetFrame::default() })
    }

    fn read_status(&self, edition: u32, frame: &[u8]) -> StatusFrame {
        let answer = sirad_fields::read_status(edition, frame).map(|status| StatusFrame {
            refusal: 0,
            format: narrow(status.format),
            gain: narrow(status.gain),
            accuracy: narrow(status.accuracy),
            accuracy_mm: narrow(status.accuracy_mm),
            max_range: narrow(status.max_range),
            ramp_time: narrow(status.ramp_time),
            bandwidth: narrow(status.bandwidth),
            time_difference: narrow(status.time_difference),
        });
        either(answer, |refusal| StatusFrame { refusal, ..StatusFrame::default() })
    }

    fn read_error(&self, frame: &[u8]) -> ErrorFrame {
        let answer = sirad_fields::read_error(frame).map(|flags| ErrorFrame { refusal: 0, flags: narrow(flags) });
        either(answer, |refusal| ErrorFrame { refusal, flags: 0 })
    }

    fn write_data(&self, output: &mut [u8], kind: u32, content: &[u8]) -> Written {
        written(sirad_fields::write_data(kind, content, output))
    }

    fn write_targets(&self, output: &mut [u8], frame: TargetFrame) -> Written {
        let blocks = frame.targets.map(|target| sirad_fields::Target {
            number: target.number.into(),
            empty: target.empty.into(),
            distance: target.distance.into(),
            magnitude: target.magnitude.into(),
            phase: target.phase.into(),
        });
        let (format, gain) = (frame.format.into(), frame.gain.into());
        written(sirad_fields::write_targets(&sirad_fields::Targets { format, gain, blocks }, output))
    }

    fn write_status(&self, output: &mut [u8], status: StatusFrame) -> Written {
        let status = sirad_fields::Status {
            format: status.format.into(),
            gain: status.gain.into(),
            accuracy: status.accuracy.into(),
            accuracy_mm: status.accuracy_mm.into(),
            max_range: status.max_range.into(),
            ramp_time: status.ramp_time.into(),
            bandwidth: status.bandwidth.into(),
            time_difference: status.time_difference.into(),
        };
        written(sirad_fields::write_status(&status, output))
    }

    fn write_error(&self, output: &mut [u8], flags: u16) -> Written {
        written(sirad_fields::write_error(flags.into(), output))
    }
}

#[cfg(test)]
mod tests {
    use super::*;
    use std::mem::{offset_of, size_of};

    #[test]
    fn the_layout_is_that_of_the_header() {
        assert_eq!(size_of::<Header>(), 36);
        assert_eq!((size_of::<Record>(), offset_of!(Record, start)), (24, 8));
        assert_eq!((size_of::<Step>(), offset_of!(Step, next)), (32, 24));
        assert_eq!(size_of::<Point>(), 20);
        assert_eq!((size_of::<Command>(), offset_of!(Command, rd), offset_of!(Command, code)), (136, 4, 8));
        assert_eq!((size_of::<DataFrame>(), offset_of!(DataFrame, size)), (24, 16));
        assert_eq!((size_of::<Target>(), offset_of!(Target, number), offset_of!(Target, empty)), (8, 0, 1));
        let behind = [offset_of!(Target, distance), offset_of!(Target, magnitude), offset_of!(Target, phase)];
        assert_eq!(behind, [2, 4, 6]);
        assert_eq!((size_of::<TargetFrame>(), offset_of!(TargetFrame, targets)), (136, 6));
        assert_eq!((size_of::<StatusFrame>(), offset_of!(StatusFrame, accuracy)), (20, 6));
        assert_eq!((size_of::<ErrorFrame>(), offset_of!(ErrorFrame, flags)), (8, 4));
        assert_eq!((size_of::<Written>(), offset_of!(Written, size)), (16, 8));
    }

    #[test]
    fn an_rd_without_an_encoding_goes_behind_46_and_before_51() {
        let command = Command { rd: 2, code: 0x6006, count: 1, ..Command::default() };
        let refusal = |command: Command| Reference.write_command(&mut [], command).refusal;
        assert_eq!((refusal(command), refusal(Command { rd: 1, ..command })), (50, 51));
        assert_eq!(refusal(Command { rd: 1 << 31, words: [5; MAX_PAYLOAD], ..command }), 46);
        assert_eq!(refusal(Command { rd: u32::MAX, count: 2, ..command }), 45);
        assert_eq!(refusal(Command { rd: 3, code: 0x6009, ..command }), 44);
    }

    #[test]
    fn a_part_is_told_by_its_start() {
        let frame = b"!P000200000000Z\"\r\n";
        assert_eq!(Reference.read_data(frame), DataFrame { refusal: 0, kind: 2, start: 14, size: 2 });
        assert_eq!(Reference.read_data(&frame[1..]), DataFrame { refusal: 5, ..DataFrame::default() });
        assert_eq!(Reference.step(16, frame, 7), Step { refusal: 5, next: 7, ..Step::default() });
    }
}
