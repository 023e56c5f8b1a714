//! The static library `libvellanquor.a` behind safe functions. The module is there only if `VQ_LIB_DIR` names the directory
//! that holds it.

#![allow(unsafe_code)]

use crate::abi::feeding::{Fed, FeedSubject, Stream};
use crate::abi::fields::{
    Command, DataFrame, ErrorFrame, FieldSubject, Header, Point, Record, StatusFrame, Step, TargetFrame, Written,
};
use crate::abi::proximity::{Closeness, ProximitySubject};
use crate::abi::{Centidegrees, Judgement, Millimetres, Reading, Subject};

extern "C" {
    fn vq_judge(dialect: u32, bytes: *const u8, count: usize, offset: usize) -> Judgement;
    fn vq_millimetres(edition: u32, bits: u32) -> Millimetres;
    fn vq_centidegrees(character: u8) -> Centidegrees;
}

extern "C" {
    fn vq_open_reading(dialect: u32, bytes: *const u8, count: usize, table: *mut u32, numbers: usize) -> Reading;
    fn vq_closed_reading(dialect: u32, bytes: *const u8, count: usize, table: *mut u32, numbers: usize) -> Reading;
}

extern "C" {
    fn vq_feed(
        dialect: u32,
        stream: Stream,
        carry: *mut u8,
        room: usize,
        bytes: *const u8,
        count: usize,
        table: *mut u32,
        numbers: usize,
    ) -> Fed;
}

extern "C" {
    fn vq_header(kind: u32, packet: *const u8, count: usize) -> Header;
    fn vq_record(kind: u32, packet: *const u8, count: usize, index: usize) -> Record;
    fn vq_step(kind: u32, packet: *const u8, count: usize, place: usize) -> Step;
    fn vq_point(edition: u32, packet: *const u8, count: usize, index: usize) -> Point;
    fn vq_read_command(bytes: *const u8, count: usize) -> Command;
    fn vq_write_command(output: *mut u8, room: usize, command: Command) -> Written;
    fn vq_read_data(frame: *const u8, count: usize) -> DataFrame;
    fn vq_read_targets(frame: *const u8, count: usize) -> TargetFrame;
    fn vq_read_status(edition: u32, frame: *const u8, count: usize) -> StatusFrame;
    fn vq_read_error(frame: *const u8, count: usize) -> ErrorFrame;
    fn vq_write_data(output: *mut u8, room: usize, kind: u32, content: *const u8, count: usize) -> Written;
    fn vq_write_targets(output: *mut u8, room: usize, frame: TargetFrame) -> Written;
    fn vq_write_status(
        output: *mut u8,
        room: usize,
        format: u8,
        gain: u8,
        accuracy: u16,
        max_range: u16,
        ramp_time: u16,
        bandwidth: u16,
        time_difference: u16,
    ) -> Written;
    fn vq_write_error(output: *mut u8, room: usize, flags: u16) -> Written;
}

extern "C" {
    fn vq_anyone_close(dialect: u32, edition: u32, distance: u32, bytes: *const u8, count: usize) -> Closeness;
}

/// The linked libraries.
pub struct Gateway;

impl Subject for Gateway {
    fn judge(&self, dialect: u32, bytes: &[u8], place: usize) -> Judgement {
        // SAFETY: the pointer and the length are those of a slice.
        unsafe { vq_judge(dialect, bytes.as_ptr(), bytes.len(), place) }
    }

    fn millimetres(&self, edition: u32, bits: u32) -> Millimetres {
        // SAFETY: numbers only.
        unsafe { vq_millimetres(edition, bits) }
    }

    fn centidegrees(&self, character: u8) -> Centidegrees {
        // SAFETY: a number only.
        unsafe { vq_centidegrees(character) }
    }

    fn open_reading(&self, dialect: u32, bytes: &[u8], table: &mut [u32]) -> Reading {
        // SAFETY: the pointers and lengths are those of two slices, of which the second is ours to write.
        unsafe { vq_open_reading(dialect, bytes.as_ptr(), bytes.len(), table.as_mut_ptr(), table.len()) }
    }

    fn closed_reading(&self, dialect: u32, bytes: &[u8], table: &mut [u32]) -> Reading {
        // SAFETY: the pointers and lengths are those of two slices, of which the second is ours to write.
        unsafe { vq_closed_reading(dialect, bytes.as_ptr(), bytes.len(), table.as_mut_ptr(), table.len()) }
    }
}

impl FeedSubject for Gateway {
    // Within its caller, since the speed tables count instructions.
    #[inline]
    fn feed(&self, dialect: u32, stream: Stream, carry: &mut [u8], bytes: &[u8], table: &mut [u32]) -> Fed {
        let (place, room) = (carry.as_mut_ptr(), carry.len());
        let (rows, numbers) = (table.as_mut_ptr(), table.len());
        // SAFETY: the pointers and lengths are those of three slices, of which the carry and the table are ours to write.
        unsafe { vq_feed(dialect, stream, place, room, bytes.as_ptr(), bytes.len(), rows, numbers) }
    }
}

// SAFETY of each call: every pointer and length are those of a slice, of which the output is ours to write.
impl FieldSubject for Gateway {
    fn header(&self, kind: u32, packet: &[u8]) -> Header {
        unsafe { vq_header(kind, packet.as_ptr(), packet.len()) }
    }

    fn record(&self, kind: u32, packet: &[u8], index: usize) -> Record {
        unsafe { vq_record(kind, packet.as_ptr(), packet.len(), index) }
    }

    fn step(&self, kind: u32, packet: &[u8], place: usize) -> Step {
        unsafe { vq_step(kind, packet.as_ptr(), packet.len(), place) }
    }

    fn point(&self, edition: u32, packet: &[u8], index: usize) -> Point {
        unsafe { vq_point(edition, packet.as_ptr(), packet.len(), index) }
    }

    fn read_command(&self, bytes: &[u8]) -> Command {
        unsafe { vq_read_command(bytes.as_ptr(), bytes.len()) }
    }

    fn write_command(&self, output: &mut [u8], command: Command) -> Written {
        unsafe { vq_write_command(output.as_mut_ptr(), output.len(), command) }
    }

    fn read_data(&self, frame: &[u8]) -> DataFrame {
        unsafe { vq_read_data(frame.as_ptr(), frame.len()) }
    }

    fn read_targets(&self, frame: &[u8]) -> TargetFrame {
        unsafe { vq_read_targets(frame.as_ptr(), frame.len()) }
    }

    fn read_status(&self, edition: u32, frame: &[u8]) -> StatusFrame {
        unsafe { vq_read_status(edition, frame.as_ptr(), frame.len()) }
    }

    fn read_error(&self, frame: &[u8]) -> ErrorFrame {
        unsafe { vq_read_error(frame.as_ptr(), frame.len()) }
    }

    fn write_data(&self, output: &mut [u8], kind: u32, content: &[u8]) -> Written {
        unsafe { vq_write_data(output.as_mut_ptr(), output.len(), kind, content.as_ptr(), content.len()) }
    }

    fn write_targets(&self, output: &mut [u8], frame: TargetFrame) -> Written {
        unsafe { vq_write_targets(output.as_mut_ptr(), output.len(), frame) }
    }

    fn write_status(&self, output: &mut [u8], status: StatusFrame) -> Written {
        let StatusFrame { format, gain, accuracy, max_range, ramp_time, bandwidth, time_difference, .. } = status;
        let (place, room) = (output.as_mut_ptr(), output.len());
        unsafe {
            vq_write_status(place, room, format, gain, accuracy, max_range, ramp_time, bandwidth, time_difference)
        }
    }

    fn write_error(&self, output: &mut [u8], flags: u16) -> Written {
        unsafe { vq_write_error(output.as_mut_ptr(), output.len(), flags) }
    }
}

impl ProximitySubject for Gateway {
    fn anyone_close(&self, dialect: u32, edition: u32, distance: u32, bytes: &[u8]) -> Closeness {
        // SAFETY: the pointer and the length are those of a slice.
        unsafe { vq_anyone_close(dialect, edition, distance, bytes.as_ptr(), bytes.len()) }
    }
}
