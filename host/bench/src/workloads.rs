//! The buffers that are read: real lines, lines in noise, and bytes chosen to cost as much as can be.

use std::cmp::Ordering;

use radar_reference::generate::floats::{float_bits, float_half};
use radar_reference::generate::random::Random;
use radar_reference::generate::{mmwave, sirad, vital_signs};
use radar_reference::judgement::{MMWAVE, SIRAD, VITAL_SIGNS};
use radar_reference::packet_rules::MAGIC;
use radar_reference::reading::ROW;

/// What a workload's bytes are for.
#[derive(Clone, Copy, Debug, PartialEq, Eq)]
pub enum Task {
    /// A closed reading of this dialect.
    Read(u32),
    /// Each four bytes are the bits of a float, to be given in millimetres by this edition.
    Convert(u32),
    /// Each byte is a character, to be given in hundredths of a degree.
    Phases,
    /// mmWave packets, to be asked whether a point is within [`DISTANCE`] by edition 1, and whether one is.
    AnyoneClose(bool),
}

impl Task {
    /// The numbers of each answer: of a row, of a float or character, of a question.
    pub fn width(self) -> usize {
        match self {
            Task::Read(_) => ROW,
            Task::Convert(_) | Task::Phases => 2,
            Task::AnyoneClose(_) => 4,
        }
    }
}

/// How many millimetres are close.
pub const DISTANCE: u32 = 2000;

/// A kind of buffer.
pub struct Workload {
    /// Its name in the tables.
    pub name: &'static str,
    /// What is done with it.
    pub task: Task,
    make: fn(&mut Random, usize) -> Vec<u8>,
}

impl Workload {
    /// The buffer of so many bytes.
    pub fn bytes(&self, size: usize) -> Vec<u8> {
        let mut bytes = (self.make)(&mut Random::new(1), size);
        bytes.truncate(size);
        assert_eq!(bytes.len(), size, "{}", self.name);
        bytes
    }
}

const fn read(name: &'static str, dialect: u32, make: fn(&mut Random, usize) -> Vec<u8>) -> Workload {
    Workload { name, task: Task::Read(dialect), make }
}

const fn convert(name: &'static str, edition: u32, make: fn(&mut Random, usize) -> Vec<u8>) -> Workload {
    Workload { name, task: Task::Convert(edition), make }
}

const fn phases(name: &'static str, make: fn(&mut Random, usize) -> Vec<u8>) -> Workload {
    Workload { name, task: Task::Phases, make }
}

const fn anyone_close(name: &'static str, answer: bool, make: fn(&mut Random, usize) -> Vec<u8>) -> Workload {
    Workload { name, task: Task::AnyoneClose(answer), make }
}

/// All workloads, in the order of the tables.
pub const WORKLOADS: [Workload; 37] = [
    read("SiRad T, back to back", SIRAD, |random, size| repeat(size, || targets(random, DIGITS))),
    read("SiRad T, every digit 0", SIRAD, |random, size| repeat(size, || targets(random, b"0"))),
    read("SiRad T, two targets, rest \"0\"", SIRAD, |random, size| repeat(size, || two_targets(random, [b'0'; 14]))),
    read("SiRad T, two targets, rest value 0", SIRAD, |random, size| repeat(size, || two_targets(random, [0; 14]))),
    read("SiRad R, n = 512", SIRAD, |random, size| repeat(size, || range(random, 512))),
    read("SiRad E", SIRAD, |random, size| repeat(size, || error(random))),
    read("SiRad U", SIRAD, |random, size| repeat(size, || status(random))),
    read("SiRad in noise", SIRAD, |random, size| {
        repeat(size, || with_noise(random, |random| sirad::frame(random, 600).expect("room for a frame")))
    }),
    read("`!` everywhere", SIRAD, |_, size| vec![b'!'; size]),
    read("`!R` everywhere", SIRAD, |_, size| repeat(size, || b"!R".to_vec())),
    read("`!RFFFF`, no end", SIRAD, |random, size| repeat(size, || endless(random))),
    read("`!RFFFF00000000` repeated", SIRAD, |_, size| repeat(size, || b"!RFFFF00000000".to_vec())),
    read("SiRad T, last byte wrong", SIRAD, |random, size| repeat(size, || wrong_end(targets(random, DIGITS)))),
    read("mmWave points, K = 3", MMWAVE, |random, size| repeat(size, || points(random))),
    read("mmWave, eight types", MMWAVE, |random, size| repeat(size, || eight_types(random))),
    read("mmWave L = 64, K = 0", MMWAVE, |_, size| repeat(size, || packet(64, 0, &[]))),
    read("mmWave in noise", MMWAVE, |random, size| {
        repeat(size, || with_noise(random, |random| mmwave::packet(random, 600).expect("room for a packet")))
    }),
    read("magics everywhere", MMWAVE, |_, size| repeat(size, || MAGIC.to_vec())),
    read("02 everywhere", MMWAVE, |_, size| vec![2; size]),
    read("32 records, last unfit", MMWAVE, |_, size| repeat(size, unfit_chain)),
    read("32 records, one type again", MMWAVE, |_, size| repeat(size, type_again_chains)),
    read("vital signs, four types", VITAL_SIGNS, |random, size| repeat(size, || four_types(random))),
    read("vital signs L = 40", VITAL_SIGNS, |_, size| repeat(size, || packet(40, 99, &[]))),
    read("vital signs in noise", VITAL_SIGNS, |random, size| {
        repeat(size, || with_noise(random, |random| vital_signs::packet(random, 600).expect("room for a packet")))
    }),
    read("vital signs, 32 records", VITAL_SIGNS, |_, size| repeat(size, unfit_vital_signs)),
    convert("coordinates to mm", 1, coordinates),
    convert("any floats to mm", 1, any_floats),
    convert("coordinates to mm, edition 2", 2, coordinates),
    convert("any floats to mm, edition 2", 2, any_floats),
    convert("half millimetres, edition 2", 2, |random, size| {
        repeat(size, || float_half(random).to_le_bytes().to_vec())
    }),
    phases("phases of a P frame", |random, size| {
        let mut bytes = Vec::with_capacity(size);
        characters_into(random, &mut bytes, size);
        bytes
    }),
    phases("any bytes as phases", |random, size| (0..size).map(|_| random.byte()).collect()),
    anyone_close("anyone close: points, none", false, |random, size| passage(random, size, [1.5, -2.0, 2.5, 0.0])),
    anyone_close("anyone close: points, the last", true, |random, size| passage(random, size, [1.5, -2.0, 2.0, 0.0])),
    anyone_close("anyone close: in noise, none", false, |random, size| {
        repeat(size, || with_noise(random, few_far_points))
    }),
    anyone_close("anyone close: magics everywhere", false, |_, size| repeat(size, || MAGIC.to_vec())),
    anyone_close("anyone close: 32 records, unfit", false, |_, size| repeat(size, unfit_chain)),
];

const DIGITS: &[u8] = b"0123456789ABCDEF";

fn repeat(size: usize, mut piece: impl FnMut() -> Vec<u8>) -> Vec<u8> {
    let mut bytes = Vec::with_capacity(size + 70_000);
    while bytes.len() < size {
        bytes.extend(piece());
    }
    bytes
}

fn pick_into(random: &mut Random, bytes: &mut Vec<u8>, choices: &[u8], count: usize) {
    bytes.extend((0..count).map(|_| random.pick(choices)));
}

fn characters_into(random: &mut Random, bytes: &mut Vec<u8>, count: usize) {
    bytes.extend((0..count).map(|_| random.within(34, 254) as u8));
}

fn targets(random: &mut Random, digits: &[u8]) -> Vec<u8> {
    targets_before(random, digits, &[])
}

/// Two targets and fourteen such empty blocks.
fn two_targets(random: &mut Random, empty: [u8; 14]) -> Vec<u8> {
    targets_before(random, DIGITS, &[empty; 14])
}

/// A T frame with targets before these empty blocks, sixteen blocks in all.
fn targets_before(random: &mut Random, digits: &[u8], empty: &[[u8; 14]]) -> Vec<u8> {
    let mut bytes = b"!T".to_vec();
    pick_into(random, &mut bytes, digits, 1);
    characters_into(random, &mut bytes, 1);
    for _ in empty.len()..16 {
        pick_into(random, &mut bytes, digits, 5);
        characters_into(random, &mut bytes, 1);
        pick_into(random, &mut bytes, digits, 4);
        bytes.extend(b"0000");
    }
    bytes.extend(empty.as_flattened());
    bytes.extend(b"\r\n");
    bytes
}

fn wrong_end(mut frame: Vec<u8>) -> Vec<u8> {
    *frame.last_mut().expect("a frame is not empty") = b'\r';
    frame
}

fn range(random: &mut Random, size: usize) -> Vec<u8> {
    let mut bytes = format!("!R{size:04X}00000000").into_bytes();
    characters_into(random, &mut bytes, size);
    bytes.extend(b"\r\n");
    bytes
}

fn error(random: &mut Random) -> Vec<u8> {
    let mut bytes = b"!E".to_vec();
    pick_into(random, &mut bytes, DIGITS, 4);
    bytes.extend(b"\r\n");
    bytes
}

fn status(random: &mut Random) -> Vec<u8> {
    let mut bytes = b"!U".to_vec();
    pick_into(random, &mut bytes, DIGITS, 1);
    characters_into(random, &mut bytes, 1);
    pick_into(random, &mut bytes, DIGITS, 20);
    bytes.extend(b"\r\n");
    bytes
}

/// The greatest size with all its characters, and the next start where the stop marker should be.
fn endless(random: &mut Random) -> Vec<u8> {
    let mut bytes = b"!RFFFF".to_vec();
    characters_into(random, &mut bytes, 8 + 0xFFFF);
    bytes
}

/// A frame and 512 bytes of any value behind it.
fn with_noise(random: &mut Random, frame: fn(&mut Random) -> Vec<u8>) -> Vec<u8> {
    let mut bytes = frame(random);
    bytes.extend((0..512).map(|_| random.byte()));
    bytes
}

fn packet(total: u32, objects: u32, records: &[(u32, Vec<u8>)]) -> Vec<u8> {
    let mut bytes = header(total, objects, records.len() as u32);
    for (record_type, payload) in records {
        bytes.extend(record_type.to_le_bytes());
        bytes.extend((payload.len() as u32).to_le_bytes());
        bytes.extend(payload);
    }
    bytes.resize(total as usize, 0);
    bytes
}

fn header(total: u32, objects: u32, records: u32) -> Vec<u8> {
    let fields = [0x0305_0004, total, 0x000A_6843, 7, 0x1234_5678, objects, records, 0];
    MAGIC.into_iter().chain(fields.iter().flat_map(|field| field.to_le_bytes())).collect()
}

/// 20 points with their side information, and the statistics.
fn points(random: &mut Random) -> Vec<u8> {
    let floats = (0..80).flat_map(|_| coordinate(random)).collect();
    let side = (0..80).map(|_| random.byte()).collect();
    let statistics = (0..24).map(|_| random.byte()).collect();
    packet(512, 20, &[(1, floats), (7, side), (6, statistics)])
}

/// All that a chip can send: 4 points with their side information; of 16 range bins the profile, the noise, a heat map of 8
/// antennas and one of 16 Doppler bins; the statistics and the temperatures.
fn eight_types(random: &mut Random) -> Vec<u8> {
    let points = (0..16).flat_map(|_| coordinate(random)).collect();
    let mut payload = |length: usize| (0..length).map(|_| random.byte()).collect();
    let (profile, noise) = (payload(2 * 16), payload(2 * 16));
    let (azimuth, doppler) = (payload(4 * 16 * 8), payload(2 * 16 * 16));
    let (statistics, side, temperatures) = (payload(24), payload(4 * 4), payload(28));
    packet(
        1344,
        4,
        &[
            (1, points),
            (2, profile),
            (3, noise),
            (4, azimuth),
            (5, doppler),
            (6, statistics),
            (7, side),
            (9, temperatures),
        ],
    )
}

/// Packets of 40 to 60 far points with their side information and the statistics, as [`points`] has them. The last packet takes
/// up the rest, and its last point is this one.
fn passage(random: &mut Random, size: usize, last: [f32; 4]) -> Vec<u8> {
    // The header, those of the records and the statistics take 88 bytes, a point with its side information 20.
    let longest = (88 + 20 * 60_usize).next_multiple_of(32);
    let mut bytes = Vec::with_capacity(size);
    while size - bytes.len() > 2 * longest {
        let count = random.within(40, 60);
        bytes.extend(far_packet(random, count));
    }
    let rest = size - bytes.len();
    let mut points = far_points(random, rest.saturating_sub(88 + 20) / 20);
    points.push(last);
    bytes.extend(mmwave::packet_of_points(random, &points));
    bytes
}

fn few_far_points(random: &mut Random) -> Vec<u8> {
    let count = random.within(1, 20);
    far_packet(random, count)
}

fn far_packet(random: &mut Random, count: usize) -> Vec<u8> {
    let points = far_points(random, count);
    mmwave::packet_of_points(random, &points)
}

fn far_points(random: &mut Random, count: usize) -> Vec<[f32; 4]> {
    (0..count).map(|_| far_point(random)).collect()
}

/// X, Y or Z is the first coordinate that is not within [`DISTANCE`]; what is behind it is within 12 metres.
fn far_point(random: &mut Random) -> [f32; 4] {
    let far = random.below(3);
    std::array::from_fn(|axis| match axis.cmp(&far) {
        Ordering::Less => metres(random, 0, DISTANCE),
        Ordering::Equal => metres(random, DISTANCE + 1, 12_000),
        Ordering::Greater => metres(random, 0, 12_000),
    })
}

/// Whole or half millimetres, from the least to the most in magnitude.
fn metres(random: &mut Random, least: u32, most: u32) -> f32 {
    let magnitude = random.within(2 * least as usize, 2 * most as usize) as f32 / 2000.0;
    if random.once_in(2) {
        -magnitude
    } else {
        magnitude
    }
}

fn coordinates(random: &mut Random, size: usize) -> Vec<u8> {
    repeat(size, || coordinate(random))
}

fn any_floats(random: &mut Random, size: usize) -> Vec<u8> {
    repeat(size, || float_bits(random).to_le_bytes().to_vec())
}

/// Whole or half millimetres within 12 metres.
fn coordinate(random: &mut Random) -> Vec<u8> {
    let metres = random.below(48_000) as f32 / 2000.0 - 12.0;
    metres.to_bits().to_le_bytes().to_vec()
}

/// The vital signs, a range profile of 64 bins, 32 samples of each antenna, the system information.
fn four_types(random: &mut Random) -> Vec<u8> {
    let mut payload = |length: usize| (0..length).map(|_| random.byte()).collect();
    packet(884, 99, &[(1, payload(24)), (2, payload(4 * 64)), (3, payload(16 * 32)), (4, payload(20))])
}

/// A header and a record of 40 bytes whose payload is the next header: each magic starts a chain of 32 records.
fn chain(total: u32, objects: u32, record_type: u32) -> Vec<u8> {
    let mut bytes = header(total, objects, 32);
    bytes.extend(record_type.to_le_bytes());
    bytes.extend(40u32.to_le_bytes());
    bytes
}

/// The last record ends 25 bytes too early.
fn unfit_chain() -> Vec<u8> {
    chain(1632, 0, 10)
}

/// Chains that would fit if types could repeat. Of any 32 records in a row six have known types, five of them by turns: the
/// sixth has the first one's again, in the chain's 27th record or a later one.
fn type_again_chains() -> Vec<u8> {
    let mut known = [2, 3, 4, 5, 7].into_iter().cycle();
    let places = [0, 5, 10, 15, 20, 26];
    let record_type = |record: usize| if places.contains(&(record % 32)) { known.next() } else { None };
    (0..5 * 32).map(record_type).flat_map(|known| chain(1600, 10, known.unwrap_or(10))).collect()
}

/// The last record ends 4 bytes too early.
fn unfit_vital_signs() -> Vec<u8> {
    chain(1580, 99, 2)
}
