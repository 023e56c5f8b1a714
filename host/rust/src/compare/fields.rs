//! Fields and commands: a subject against the reader, on frames, packets and commands that are whole, damaged, cut or
//! hostile, and on values to be written, into outputs from none to more than enough.
//!
//! One seed makes one frame, packet or command; the tally counts the answers by function and refusal.

use std::fmt::Debug;

use super::{Difference, Tally};
use crate::abi::fields::{Command, FieldSubject, Header, StatusFrame, Target, TargetFrame, Written};
use crate::abi::{Reference, Subject};
use crate::generate::demorad::{self, Values};
use crate::generate::floats::{float_bits, float_half, wrong_edition, wrong_editions};
use crate::generate::random::Random;
use crate::generate::{lent, mmwave, sirad, vital_signs};
use crate::judgement::{MMWAVE, SIRAD, VITAL_SIGNS};
use crate::reading::ROW;
use crate::refusal::{Refusal, MAX_BYTES};
use crate::sirad::BLOCK_LENGTH;

/// The kinds that packets are read of.
const PACKET_KINDS: [u32; 2] = [crate::mmwave::PACKET, crate::vital_signs::PACKET];
/// Kinds that no packet is read of; the low bits of some are 16 or 17.
const OTHER_KINDS: [u32; 12] = [0, 1, 2, 6, 15, 18, 19, 33, 272, 273, 0x0011_0000, u32::MAX];

/// A run of seeds and what it counted so far.
struct Run<'a> {
    name: &'static str,
    subject: &'a dyn FieldSubject,
    /// None for a fixed case.
    seed: Option<u64>,
    tally: Tally,
}

impl<'a> Run<'a> {
    fn new(name: &'static str, subject: &'a dyn FieldSubject) -> Run<'a> {
        Run { name, subject, seed: None, tally: Tally::default() }
    }

    /// Compares what a function answers, and counts it.
    fn check<T: PartialEq + Debug>(
        &mut self,
        function: &str,
        bytes: &[u8],
        ask: impl Fn(&dyn FieldSubject) -> T,
        refusal: fn(&T) -> Refusal,
    ) -> Result<T, Difference> {
        let (expected, answer) = (ask(&Reference), ask(self.subject));
        if answer != expected {
            let what = format!("{function}: expected {expected:?}, answered {answer:?}");
            let origin = match self.seed {
                Some(seed) => format!("seed {seed} of {}", self.name),
                None => format!("a fixed case of {}", self.name),
            };
            return Err(Difference { what, origin, bytes: bytes.to_vec() });
        }
        self.tally.count(match refusal(&answer) {
            0 => function.to_owned(),
            refusal => format!("{function}, refused {refusal}"),
        });
        Ok(answer)
    }

    /// Compares what a function answers by both editions and by another, and counts where the editions differ.
    fn check_editions<T: PartialEq + Debug>(
        &mut self,
        function: &str,
        bytes: &[u8],
        other: u32,
        ask: impl Fn(&dyn FieldSubject, u32) -> T,
        refusal: fn(&T) -> Refusal,
    ) -> Result<(), Difference> {
        let mut by = |edition| {
            let answer = self.check(function, bytes, |subject| ask(subject, edition), refusal);
            answer.map_err(|difference| difference.by_edition(edition))
        };
        let (first, second) = (by(1)?, by(2)?);
        by(other)?;
        if first != second {
            self.tally.count(format!("{function}, the editions differ"));
        }
        Ok(())
    }

    /// All four readers of SiRad fields; what is read of a T frame is written again.
    fn check_frame(&mut self, frame: &[u8], other: u32) -> Result<(), Difference> {
        let data = self.check("read_data", frame, |subject| subject.read_data(frame), |answer| answer.refusal)?;
        if data.refusal == 0 {
            self.tally.count(format!("read_data, kind {}", data.kind));
        }
        self.check_targets(frame)?;
        self.check_status(frame, other)?;
        self.check("read_error", frame, |subject| subject.read_error(frame), |answer| answer.refusal)?;
        Ok(())
    }

    fn check_status(&mut self, frame: &[u8], other: u32) -> Result<(), Difference> {
        let ask = |subject: &dyn FieldSubject, edition| subject.read_status(edition, frame);
        self.check_editions("read_status", frame, other, ask, |answer| answer.refusal)
    }

    fn check_targets(&mut self, frame: &[u8]) -> Result<(), Difference> {
        let read = self.check("read_targets", frame, |subject| subject.read_targets(frame), |answer| answer.refusal)?;
        if read.refusal != 0 {
            return Ok(());
        }
        for (block, _) in frame[4..].chunks(BLOCK_LENGTH).zip(read.targets).filter(|(_, target)| target.empty == 1) {
            let form = if block[0] == 0 { "of value 0" } else { "of `0`" };
            self.tally.count(format!("read_targets, an empty block {form}"));
        }
        self.check_writer("write_targets again", &read, frame.len(), |subject, output| {
            subject.write_targets(output, read)
        })
    }

    /// The header, the records by index and by place, of each kind that packets are read of and of some other; the points.
    fn check_packet(&mut self, random: &mut Random, packet: &[u8], edition: u32) -> Result<(), Difference> {
        for kind in PACKET_KINDS {
            let header = self.check_header(kind, packet)?;
            for index in (0..=header.records as usize + 1).chain([u32::MAX as usize, 1 << 32, usize::MAX]) {
                self.check_record(kind, packet, index)?;
            }
            for place in places(random, kind, packet, &header) {
                self.check_step(kind, packet, place)?;
            }
        }
        let other = random.pick(&OTHER_KINDS);
        self.check_header(other, packet)?;
        self.check_record(other, packet, random.below(3))?;
        self.check_step(other, packet, 40)?;
        let objects = Reference.header(PACKET_KINDS[0], packet).objects;
        point_indexes(objects as usize).into_iter().try_for_each(|index| self.check_point(packet, index, edition))
    }

    fn check_point(&mut self, packet: &[u8], index: usize, other: u32) -> Result<(), Difference> {
        let ask = |subject: &dyn FieldSubject, edition| subject.point(edition, packet, index);
        self.check_editions("point", packet, other, ask, |answer| answer.refusal)
    }

    fn check_header(&mut self, kind: u32, packet: &[u8]) -> Result<Header, Difference> {
        let name = format!("header of kind {kind}");
        self.check(&name, packet, |subject| subject.header(kind, packet), |answer| answer.refusal)
    }

    fn check_record(&mut self, kind: u32, packet: &[u8], index: usize) -> Result<(), Difference> {
        let name = format!("record of kind {kind}");
        let answer =
            self.check(&name, packet, |subject| subject.record(kind, packet, index), |answer| answer.refusal)?;
        if answer.refusal == 0 {
            self.tally.count(format!("{name}, type {}", answer.tag.min(10)));
        }
        Ok(())
    }

    fn check_step(&mut self, kind: u32, packet: &[u8], place: usize) -> Result<(), Difference> {
        let name = format!("step of kind {kind}");
        self.check(&name, packet, |subject| subject.step(kind, packet, place), |answer| answer.refusal).map(drop)
    }

    /// One command as bytes.
    fn check_command(&mut self, bytes: &[u8]) -> Result<(), Difference> {
        let command =
            self.check("read_command", bytes, |subject| subject.read_command(bytes), |answer| answer.refusal)?;
        if command.refusal == 0 {
            self.tally.count(format!("read_command, code {:04X}", command.code));
        }
        Ok(())
    }

    /// Compares what a writer answers and all of its output, of which every byte is set before.
    fn check_writer(
        &mut self,
        function: &str,
        values: &dyn Debug,
        room: usize,
        write: impl Fn(&dyn FieldSubject, &mut [u8]) -> Written,
    ) -> Result<(), Difference> {
        let ask = |subject: &dyn FieldSubject| {
            let mut output: Vec<u8> = (0..room).map(|index| 0xA5 ^ index as u8).collect();
            (write(subject, &mut output), output)
        };
        let answer = self.check(function, &[], ask, |(written, _)| written.refusal);
        answer.map(drop).map_err(|difference| {
            let what = format!("{} for {values:?} with room for {room}", difference.what);
            Difference { what, ..difference }
        })
    }
}

/// Every field reader on every frame of a capture, on the capture itself and on it without its last byte, by both editions
/// and by the one named; the capture as a command: what a fuzzer calls.
pub fn check_fields(subject: &dyn FieldSubject, dialect: u32, edition: u32, capture: &[u8]) -> Result<(), Difference> {
    let mut run = Run::new("check_fields", subject);
    let mut table = vec![0; ROW * (capture.len() / 8 + 1)];
    let reading = Reference.closed_reading(dialect, capture, &mut table);
    let frames = table.chunks_exact(ROW).take(reading.rows as usize);
    let frames = frames.map(|row| &capture[row[0] as usize..][..row[1] as usize]);
    let cut = &capture[..capture.len().saturating_sub(1)];
    for frame in frames.chain([capture, cut]) {
        run.check_frame(frame, edition)?;
        run.check_packet(&mut Random::new(1), frame, edition)?;
    }
    run.check("read_command", capture, |subject| subject.read_command(capture), |answer| answer.refusal).map(drop)
}

/// So many SiRad slices, each with all four readers of fields; then a U frame with every accuracy, and by editions that are
/// none.
pub fn compare_frames(subject: &dyn FieldSubject, first_seed: u64, frames: u64) -> Result<Tally, Difference> {
    let mut run = Run::new("compare_frames", subject);
    for seed in first_seed..first_seed + frames {
        run.seed = Some(seed);
        let mut random = Random::new(seed);
        let identifier = b"RPCTUE"[(seed % 6) as usize];
        let room = if random.once_in(16) { 66_000 } else { 400 };
        let frame = sirad::frame_of(&mut random, identifier, room);
        let frame = &lent(&mut random, SIRAD, frame)[..];
        run.check_frame(frame, wrong_edition(&mut random))?;
    }
    run.seed = None;
    for slice in [Vec::new(), too_long(b"!E0000\r\n"), too_long(&status_with(5))] {
        run.check_frame(&slice, 0)?;
    }
    (0..=u16::MAX).try_for_each(|accuracy| run.check_status(&status_with(accuracy), 3))?;
    for edition in wrong_editions() {
        let frame = status_with(25);
        run.check_status(&frame, edition)?;
        run.check_status(&frame[1..], edition)?;
    }
    Ok(run.tally)
}

/// A U frame of this accuracy.
fn status_with(accuracy: u16) -> Vec<u8> {
    format!("!U5Z{accuracy:04X}FFFF00000A0B0001\r\n").into_bytes()
}

/// A packet from every place, its records and points at every index, and each a little beyond; two points by every edition
/// that is none.
pub fn check_throughout(subject: &dyn FieldSubject, packet: &[u8]) -> Result<Tally, Difference> {
    let mut run = Run::new("check_throughout", subject);
    run.check_packet(&mut Random::new(1), packet, 0)?;
    for kind in OTHER_KINDS {
        run.check_header(kind, packet)?;
        run.check_record(kind, packet, 0)?;
        run.check_step(kind, packet, 40)?;
    }
    for place in 0..packet.len() + 2 {
        PACKET_KINDS.into_iter().try_for_each(|kind| run.check_step(kind, packet, place))?;
    }
    let objects = Reference.header(PACKET_KINDS[0], packet).objects as usize;
    for index in 0..objects.min(packet.len() / 16) + 2 {
        run.check_point(packet, index, 3)?;
    }
    for edition in wrong_editions() {
        run.check_point(packet, 0, edition)?;
        run.check_point(packet, objects, edition)?;
    }
    Ok(run.tally)
}

/// So many slices, mmWave and vital signs by turns: the header, the records by index and by place, the points.
pub fn compare_packets(subject: &dyn FieldSubject, first_seed: u64, packets: u64) -> Result<Tally, Difference> {
    let mut run = Run::new("compare_packets", subject);
    for seed in first_seed..first_seed + packets {
        run.seed = Some(seed);
        let mut random = Random::new(seed);
        let dialect = if seed % 2 == 0 { MMWAVE } else { VITAL_SIGNS };
        let packet = packet(&mut random, dialect);
        let packet = lent(&mut random, dialect, packet);
        let edition = wrong_edition(&mut random);
        run.check_packet(&mut random, &packet, edition)?;
    }
    run.seed = None;
    let points = mmwave::packet_of_points(&mut Random::new(1), &[[1.0; 4]]);
    let vitals = vital_signs::monitor_packet(&mut Random::new(1), 0);
    for slice in [Vec::new(), too_long(&points), too_long(&vitals), points, vitals] {
        run.check_packet(&mut Random::new(1), &slice, 0)?;
    }
    Ok(run.tally)
}

/// More bytes than a judgement is lent, this frame first.
fn too_long(frame: &[u8]) -> Vec<u8> {
    let mut bytes = frame.to_vec();
    bytes.resize(MAX_BYTES + 1, b' ');
    bytes
}

/// A packet of any records; in mmWave also one of points with more coordinates that are refused.
fn packet(random: &mut Random, dialect: u32) -> Vec<u8> {
    if dialect == VITAL_SIGNS {
        let room = random.pick(&[40, 64, 128, 256, 512, 1024, 33_000]);
        return vital_signs::packet(random, room).unwrap_or_default();
    }
    if random.once_in(2) {
        let room = random.pick(&[64, 128, 256, 512, 1024, 33_000]);
        return mmwave::packet(random, room).unwrap_or_default();
    }
    let count = random.below(5);
    let points: Vec<[f32; 4]> = (0..count).map(|_| [(); 4].map(|()| coordinate(random))).collect();
    mmwave::packet_of_points(random, &points)
}

fn coordinate(random: &mut Random) -> f32 {
    match random.below(10) {
        0 => f32::from_bits(random.word() | 0x7F80_0000),
        1 => f32::from_bits(float_bits(random)),
        2 => random.pick(&[1000.0, -1000.0, 1000.0001, -1000.0001, f32::MAX, -0.0, 0.0625]),
        3 => float_half(random),
        _ => random.below(24_000) as f32 / 2000.0 - 6.0,
    }
}

/// Places where a record starts, and others.
fn places(random: &mut Random, kind: u32, packet: &[u8], header: &Header) -> Vec<usize> {
    let records = (0..header.records as usize).map(|index| Reference.record(kind, packet, index));
    let mut places: Vec<usize> =
        records.flat_map(|record| [record.start - 8, record.start]).map(|place| place as usize).collect();
    places.extend([0, 39, 40, 44, packet.len(), (1 << 32) + 40, usize::MAX]);
    places.extend((0..3).map(|_| random.within(0, packet.len())));
    places
}

/// The first indexes, those about the count, and some that are small again in 32 bits.
fn point_indexes(objects: usize) -> Vec<usize> {
    let mut indexes: Vec<usize> = (0..3.min(objects)).collect();
    indexes.extend([
        objects / 2,
        objects.saturating_sub(1),
        objects,
        objects + 1,
        u32::MAX as usize,
        1 << 32,
        usize::MAX,
    ]);
    indexes
}

/// So many commands as bytes, then those at the edges.
pub fn compare_commands(subject: &dyn FieldSubject, first_seed: u64, commands: u64) -> Result<Tally, Difference> {
    let mut run = Run::new("compare_commands", subject);
    for seed in first_seed..first_seed + commands {
        run.seed = Some(seed);
        run.check_command(&demorad::bytes(&mut Random::new(seed)))?;
    }
    run.seed = None;
    for bytes in demorad::edge_bytes() {
        run.check_command(&bytes)?;
    }
    Ok(run.tally)
}

/// So many commands to be written, then those at the edges: into an output of their size, one byte short, and six longer. What
/// is written is read again.
pub fn compare_written_commands(
    subject: &dyn FieldSubject,
    first_seed: u64,
    commands: u64,
) -> Result<Tally, Difference> {
    let mut run = Run::new("compare_written_commands", subject);
    for seed in first_seed..first_seed + commands {
        run.seed = Some(seed);
        let mut random = Random::new(seed);
        let Values { rd, code, count, words } = demorad::values(&mut random);
        let command = Command { refusal: random.below(3) as u32, rd, code, count, words };
        let room = room_for(&mut random, 4 * (count as usize + 1).min(31));
        run.check_writer("write_command", &command, room, |subject, output| subject.write_command(output, command))?;
    }
    run.seed = None;
    for Values { rd, code, count, words } in demorad::edge_values() {
        let command = Command { refusal: count % 3, rd, code, count, words };
        let size = 4 * (count.min(31) as usize + 1);
        for room in [size, size - 1, size + 6] {
            run.check_writer("write_command", &command, room, |subject, output| {
                subject.write_command(output, command)
            })?;
        }
        let mut output = vec![0; size];
        if run.subject.write_command(&mut output, command).refusal == 0 {
            run.check_command(&output)?;
        }
    }
    Ok(run.tally)
}

/// So many SiRad frames to be written.
pub fn compare_written_frames(subject: &dyn FieldSubject, first_seed: u64, frames: u64) -> Result<Tally, Difference> {
    let mut run = Run::new("compare_written_frames", subject);
    for seed in first_seed..first_seed + frames {
        run.seed = Some(seed);
        let random = &mut Random::new(seed);
        match seed % 4 {
            0 => {
                let kind = if random.once_in(8) {
                    random.pick(&[0, 4, 16, 257, u32::MAX])
                } else {
                    random.within(1, 3) as u32
                };
                let content = content(random);
                let room = room_for(random, 16 + content.len());
                run.check_writer("write_data", &(kind, &content), room, |subject, output| {
                    subject.write_data(output, kind, &content)
                })?;
            }
            1 => {
                let frame = target_frame(random);
                let room = room_for(random, 230);
                run.check_writer("write_targets", &frame, room, |subject, output| {
                    subject.write_targets(output, frame)
                })?;
            }
            2 => {
                let status = status_frame(random);
                let room = room_for(random, 26);
                run.check_writer("write_status", &status, room, |subject, output| {
                    subject.write_status(output, status)
                })?;
            }
            _ => {
                let flags = random.word() as u16;
                let room = room_for(random, 8);
                run.check_writer("write_error", &flags, room, |subject, output| subject.write_error(output, flags))?;
            }
        }
    }
    Ok(run.tally)
}

/// An output size: enough, exactly enough, one byte short, or none.
fn room_for(random: &mut Random, size: usize) -> usize {
    match random.below(6) {
        0 => 0,
        1 => size - 1,
        2 => random.below(size),
        3 => size,
        _ => size + random.below(9),
    }
}

/// Characters, one of them wrong now and then; a few are as many as fit a size field, or one more.
fn content(random: &mut Random) -> Vec<u8> {
    let size = if random.once_in(100) { random.pick(&[65_534, 65_535, 65_536]) } else { random.below(40) };
    let mut content: Vec<u8> = (0..size).map(|_| character(random)).collect();
    if size > 0 && random.once_in(4) {
        let any = random.below(size);
        let place = random.pick(&[0, any, size - 1]);
        content[place] = no_character(random);
    }
    content
}

fn character(random: &mut Random) -> u8 {
    random.within(34, 254) as u8
}

fn no_character(random: &mut Random) -> u8 {
    random.pick(&[0, 10, 13, 32, 33, 255])
}

/// A target that would be written as `0` throughout.
const EMPTY_TARGET: Target = Target { number: 0, empty: 0, distance: 0, magnitude: b'0', phase: 0 };

/// A target, now and then one that has one field only that is not written as `0`.
fn target(random: &mut Random) -> Target {
    let target = Target {
        number: random.below(16) as u8,
        empty: 0,
        distance: random.word() as u16,
        magnitude: character(random),
        phase: if random.once_in(4) { random.pick(&[-32_768, -1, 0, 1, 32_767]) } else { random.word() as i16 },
    };
    match random.below(32) {
        0 => Target { number: target.number.max(1), ..EMPTY_TARGET },
        1 => Target { distance: target.distance.max(1), ..EMPTY_TARGET },
        2 => Target { magnitude: random.pick(&[34, 47, 49, 254]), ..EMPTY_TARGET },
        3 => Target { phase: target.phase | 1, ..EMPTY_TARGET },
        _ => target,
    }
}

/// An empty block; whatever its other fields are counts for nothing.
fn empty_block(random: &mut Random) -> Target {
    let without_encoding = Target { number: 16, magnitude: no_character(random), ..Target::default() };
    let any = target(random);
    Target { empty: 1, ..random.pick(&[Target::default(), EMPTY_TARGET, without_encoding, any]) }
}

/// Values of a T frame, empty blocks among them: one without an encoding now and then, a target that would be written as `0`
/// now and then.
fn target_frame(random: &mut Random) -> TargetFrame {
    let mut frame = TargetFrame {
        refusal: random.below(3) as u32,
        format: random.below(16) as u8,
        gain: character(random),
        ..TargetFrame::default()
    };
    let quarters = random.pick(&[0, 1, 1, 4]);
    for block in &mut frame.targets {
        *block = if random.below(4) < quarters { empty_block(random) } else { target(random) };
    }
    if random.once_in(5) {
        frame.targets[random.below(16)] = EMPTY_TARGET;
    }
    let index = random.below(16);
    match random.below(12) {
        0 => frame.format = random.pick(&[16, 17, 255]),
        1 => frame.gain = no_character(random),
        2 => frame.targets[index].number = random.pick(&[16, 32, 255]),
        3 => frame.targets[index].magnitude = no_character(random),
        4 => frame.targets[index].empty = random.pick(&[2, 3, 128, 254, 255]),
        _ => (),
    }
    frame
}

/// Values of a U frame, likewise.
fn status_frame(random: &mut Random) -> StatusFrame {
    let mut number = || random.word() as u16;
    let mut status = StatusFrame {
        accuracy: number(),
        accuracy_mm: number(),
        max_range: number(),
        ramp_time: number(),
        bandwidth: number(),
        time_difference: number(),
        ..StatusFrame::default()
    };
    status.refusal = random.below(3) as u32;
    status.format = if random.once_in(8) { random.pick(&[16, 48, 255]) } else { random.below(16) as u8 };
    status.gain = if random.once_in(8) { no_character(random) } else { character(random) };
    status
}
