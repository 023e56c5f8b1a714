//! The readers side by side, each behind the same three functions.

#![allow(unsafe_code)]

use radar_reference::abi::proximity::Closeness;
#[cfg(gateway_linked)]
use radar_reference::abi::{Centidegrees, Millimetres, Reading};
use radar_reference::judgement::{MMWAVE, SIRAD};
use radar_reference::numbers::{millimetres, phase_hundredths};
use radar_reference::packet_rules::MAGIC;
use radar_reference::reading::{self, ROW};
use radar_reference::sirad::START_MARKER;

use crate::workloads::{Task, Workload, DISTANCE};

/// A reader in the table.
#[derive(Clone, Copy, Debug, PartialEq, Eq)]
pub enum Peer {
    /// The proved library.
    #[cfg(gateway_linked)]
    Gateway,
    /// reader.c.
    C,
    /// The independent reader of host/rust.
    Rust,
    /// nom_reader.rs.
    #[cfg(feature = "nom")]
    Nom,
    /// No reader: libc's memchr for the first byte of a frame, as the limit.
    Memchr,
}

/// What a peer found, to be compared.
#[derive(Clone, Copy, Debug, PartialEq, Eq)]
pub struct Found {
    rows: usize,
    skipped: usize,
    hash: u64,
}

#[repr(C)]
struct CReading {
    state: u32,
    rows: usize,
    skipped: usize,
    next: usize,
}

#[repr(C)]
struct CMillimetres {
    refusal: u32,
    value: i32,
}

#[repr(C)]
struct CCentidegrees {
    refusal: u32,
    value: i32,
}

extern "C" {
    fn c_closed_reading(dialect: u32, bytes: *const u8, count: usize, table: *mut u32, numbers: usize) -> CReading;
    fn c_millimetres(edition: u32, bits: u32) -> CMillimetres;
    fn c_centidegrees(character: u8) -> CCentidegrees;
    fn c_anyone_close(dialect: u32, edition: u32, distance: u32, bytes: *const u8, count: usize) -> Closeness;
    fn count_by_memchr(byte: u8, bytes: *const u8, count: usize) -> usize;
}

#[cfg(gateway_linked)]
extern "C" {
    fn vq_closed_reading(dialect: u32, bytes: *const u8, count: usize, table: *mut u32, numbers: usize) -> Reading;
    fn vq_millimetres(edition: u32, bits: u32) -> Millimetres;
    fn vq_centidegrees(character: u8) -> Centidegrees;
    fn vq_anyone_close(dialect: u32, edition: u32, distance: u32, bytes: *const u8, count: usize) -> Closeness;
}

impl Peer {
    /// All peers that are there, the first of them the one that the others are compared with.
    pub const ALL: &'static [Peer] = &[
        #[cfg(gateway_linked)]
        Peer::Gateway,
        Peer::C,
        Peer::Rust,
        #[cfg(feature = "nom")]
        Peer::Nom,
        Peer::Memchr,
    ];

    /// The name in the tables.
    pub fn name(self) -> &'static str {
        match self {
            #[cfg(gateway_linked)]
            Peer::Gateway => "gateway",
            Peer::C => "plain C",
            Peer::Rust => "safe Rust",
            #[cfg(feature = "nom")]
            Peer::Nom => "nom 7",
            Peer::Memchr => "memchr",
        }
    }

    /// Whether the peer has this task.
    pub fn can(self, task: Task) -> bool {
        match self {
            #[cfg(feature = "nom")]
            Peer::Nom => matches!(task, Task::Read(_)),
            Peer::Memchr => matches!(task, Task::Read(_)),
            Peer::Rust => !matches!(task, Task::AnyoneClose(_)),
            _ => true,
        }
    }

    /// Whether the peer gives rows, so that they can be compared.
    pub fn reads(self) -> bool {
        self != Peer::Memchr
    }

    /// Does the workload's task on its bytes. This is what is measured. The answers go to `table`: rows of three
    /// numbers, or a refusal and a value for each float or character, or the four numbers of the answer to a question.
    /// Gives the rows (floats, characters, questions) and the skipped bytes.
    pub fn run(self, task: Task, bytes: &[u8], table: &mut [u32]) -> (usize, usize) {
        match task {
            Task::Read(dialect) => self.read(dialect, bytes, table),
            Task::Convert(edition) => self.convert(edition, bytes, table),
            Task::Phases => self.phases(bytes, table),
            Task::AnyoneClose(_) => self.anyone_close(bytes, table),
        }
    }

    fn read(self, dialect: u32, bytes: &[u8], table: &mut [u32]) -> (usize, usize) {
        match self {
            #[cfg(gateway_linked)]
            Peer::Gateway => {
                // SAFETY: the pointers and lengths are those of two slices, of which the second is ours to write.
                let reading =
                    unsafe { vq_closed_reading(dialect, bytes.as_ptr(), bytes.len(), table.as_mut_ptr(), table.len()) };
                (reading.rows as usize, reading.skipped as usize)
            }
            Peer::C => {
                // SAFETY: the pointers and lengths are those of two slices, of which the second is ours to write.
                let reading =
                    unsafe { c_closed_reading(dialect, bytes.as_ptr(), bytes.len(), table.as_mut_ptr(), table.len()) };
                (reading.rows, reading.skipped)
            }
            Peer::Rust => {
                let reading = reading::closed_reading(dialect, bytes, table).expect("a legal dialect and length");
                (reading.rows, reading.skipped)
            }
            #[cfg(feature = "nom")]
            Peer::Nom => crate::nom_reader::closed_reading(dialect, bytes, table),
            Peer::Memchr => {
                let first = if dialect == SIRAD { START_MARKER } else { MAGIC[0] };
                // SAFETY: the pointer and the length are those of a slice.
                (unsafe { count_by_memchr(first, bytes.as_ptr(), bytes.len()) }, 0)
            }
        }
    }

    fn convert(self, edition: u32, bytes: &[u8], table: &mut [u32]) -> (usize, usize) {
        match self {
            #[cfg(gateway_linked)]
            Peer::Gateway => each_float(bytes, table, |bits| {
                // SAFETY: numbers only.
                let answer = unsafe { vq_millimetres(edition, bits) };
                [answer.refusal, answer.value as u32]
            }),
            Peer::C => each_float(bytes, table, |bits| {
                // SAFETY: numbers only.
                let answer = unsafe { c_millimetres(edition, bits) };
                [answer.refusal, answer.value as u32]
            }),
            _ => each_float(bytes, table, |bits| match millimetres(edition, bits) {
                Ok(value) => [0, value as u32],
                Err(refusal) => [refusal, 0],
            }),
        }
    }

    fn phases(self, bytes: &[u8], table: &mut [u32]) -> (usize, usize) {
        match self {
            #[cfg(gateway_linked)]
            Peer::Gateway => each_character(bytes, table, |character| {
                // SAFETY: a number only.
                let answer = unsafe { vq_centidegrees(character) };
                [answer.refusal, answer.value as u32]
            }),
            Peer::C => each_character(bytes, table, |character| {
                // SAFETY: a number only.
                let answer = unsafe { c_centidegrees(character) };
                [answer.refusal, answer.value as u32]
            }),
            _ => each_character(bytes, table, |character| match phase_hundredths(character) {
                Ok(value) => [0, value as u32],
                Err(refusal) => [refusal, 0],
            }),
        }
    }

    fn anyone_close(self, bytes: &[u8], table: &mut [u32]) -> (usize, usize) {
        let ask = match self {
            #[cfg(gateway_linked)]
            Peer::Gateway => vq_anyone_close,
            Peer::C => c_anyone_close,
            _ => panic!("{} is not asked", self.name()),
        };
        // SAFETY: the pointer and the length are those of a slice.
        let answer = unsafe { ask(MMWAVE, 1, DISTANCE, bytes.as_ptr(), bytes.len()) };
        table[..4].copy_from_slice(&[answer.refusal, answer.close, answer.place as u32, answer.index as u32]);
        (1, 0)
    }
}

fn each_float(bytes: &[u8], table: &mut [u32], convert: impl Fn(u32) -> [u32; 2]) -> (usize, usize) {
    for (float, answer) in bytes.chunks_exact(4).zip(table.chunks_exact_mut(2)) {
        let bits = u32::from_le_bytes([float[0], float[1], float[2], float[3]]);
        answer.copy_from_slice(&convert(bits));
    }
    (bytes.len() / 4, 0)
}

fn each_character(bytes: &[u8], table: &mut [u32], phase: impl Fn(u8) -> [u32; 2]) -> (usize, usize) {
    for (&character, answer) in bytes.iter().zip(table.chunks_exact_mut(2)) {
        answer.copy_from_slice(&phase(character));
    }
    (bytes.len(), 0)
}

/// Numbers enough for every answer on so many bytes: two for each byte as a character. The rows of frames, of eight bytes or
/// more each, and floats need fewer.
pub fn table_for(bytes: &[u8]) -> Vec<u32> {
    vec![0; 2 * bytes.len() + ROW]
}

/// Runs all peers once and demands that those which read found the same.
pub fn demand_agreement(workload: &Workload, bytes: &[u8]) {
    let mut first: Option<(Peer, Found)> = None;
    for &peer in Peer::ALL.iter().filter(|peer| peer.reads() && peer.can(workload.task)) {
        let mut table = table_for(bytes);
        let (rows, skipped) = peer.run(workload.task, bytes, &mut table);
        if let Task::AnyoneClose(answer) = workload.task {
            assert_eq!(table[..2], [0, u32::from(answer)], "{} on {}", peer.name(), workload.name);
        }
        let found = Found { rows, skipped, hash: hash(&table[..workload.task.width() * rows]) };
        let (other, expected) = *first.get_or_insert((peer, found));
        assert_eq!(found, expected, "{} against {} on {}", peer.name(), other.name(), workload.name);
    }
}

/// FNV-1a over the numbers.
fn hash(numbers: &[u32]) -> u64 {
    numbers
        .iter()
        .fold(0xCBF2_9CE4_8422_2325, |hash, &number| (hash ^ u64::from(number)).wrapping_mul(0x0000_0100_0000_01B3))
}
