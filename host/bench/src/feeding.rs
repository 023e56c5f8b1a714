//! A line's bytes as a port gives them: the feeder beside the obvious reader in C, which keeps a buffer and reads it anew at
//! each call, and beside the open reading of all bytes at once.
//!
//! The usual case: a carry as long as the longest frame and a table with room for the rows.

#![allow(unsafe_code)]

use std::hint::black_box;
use std::path::Path;

#[cfg(gateway_linked)]
use radar_reference::abi::feeding::{FeedSubject, Stream};
#[cfg(gateway_linked)]
use radar_reference::abi::Subject;
#[cfg(gateway_linked)]
use radar_reference::gateway::Gateway;
use radar_reference::reading::{open_reading, ROW};

use crate::counts::{mark, Counts};
use crate::document::{put, short, Table};
use crate::peers::table_for;
use crate::times::{clock, median, medians, range, SERIES};
use crate::workloads::{Task, Workload, WORKLOADS};

/// The bytes of a line.
const SIZE: usize = 1 << 20;
/// The bytes of a call.
const CALLS: [usize; 4] = [1, 64, 256, 4096];
/// The workloads that are lines, by their names.
const LINES: [&str; 4] = ["SiRad T, back to back", "SiRad in noise", "mmWave points, K = 3", "vital signs, four types"];
/// The rounds of a series: fewer than for readings, since a line in calls of one byte takes long.
const ROUNDS: usize = 5;
/// The bytes of the longest frame.
#[cfg(gateway_linked)]
const LONGEST: usize = 65_551;

/// A way to read a line.
#[derive(Clone, Copy, Debug, PartialEq, Eq)]
pub enum Way {
    /// The proved library's feeder.
    #[cfg(gateway_linked)]
    Feeder,
    /// line.c.
    C,
    /// The proved library's open reading, of all bytes in one call.
    #[cfg(gateway_linked)]
    AtOnce,
}

/// What line.c keeps between two calls.
#[repr(C)]
struct CLine {
    place: usize,
    count: usize,
    buffer: [u8; 1 << 17],
}

extern "C" {
    fn c_read_line(
        line: *mut CLine,
        dialect: u32,
        bytes: *const u8,
        count: usize,
        table: *mut u32,
        numbers: usize,
    ) -> usize;
}

impl Way {
    /// All ways that are there, the first of them the one that the others are compared with.
    const ALL: &'static [Way] = &[
        #[cfg(gateway_linked)]
        Way::Feeder,
        Way::C,
        #[cfg(gateway_linked)]
        Way::AtOnce,
    ];

    fn name(self) -> &'static str {
        match self {
            #[cfg(gateway_linked)]
            Way::Feeder => "vq_feed",
            Way::C => "plain C, read anew",
            #[cfg(gateway_linked)]
            Way::AtOnce => "open reading at once",
        }
    }

    /// Whether the way reads in calls, so that it can be compared with the first.
    fn is_in_calls(self) -> bool {
        match self {
            #[cfg(gateway_linked)]
            Way::AtOnce => false,
            _ => true,
        }
    }

    /// Reads the line in calls of so many bytes. This is what is measured. Gives the number of rows, which stand in the table.
    fn run(self, dialect: u32, call: usize, bytes: &[u8], table: &mut [u32], kept: &mut Kept) -> usize {
        match self {
            #[cfg(gateway_linked)]
            Way::Feeder => {
                let (mut rows, mut stream) = (0, Stream::default());
                for new in bytes.chunks(call) {
                    let fed = Gateway.feed(dialect, stream, &mut kept.carry, new, &mut table[ROW * rows..]);
                    assert_eq!(fed.refusal, 0);
                    rows += fed.rows as usize;
                    stream = fed.stream;
                }
                rows
            }
            Way::C => {
                let mut rows = 0;
                (kept.line.place, kept.line.count) = (0, 0);
                for new in bytes.chunks(call) {
                    let free = &mut table[ROW * rows..];
                    let line = &mut *kept.line;
                    // SAFETY: the line is ours, and the pointers and lengths are those of two slices.
                    let more =
                        unsafe { c_read_line(line, dialect, new.as_ptr(), new.len(), free.as_mut_ptr(), free.len()) };
                    assert_ne!(more, usize::MAX);
                    rows += more;
                }
                rows
            }
            #[cfg(gateway_linked)]
            Way::AtOnce => Gateway.open_reading(dialect, bytes, table).rows as usize,
        }
    }
}

/// The buffers that are kept between two calls.
struct Kept {
    #[cfg(gateway_linked)]
    carry: Vec<u8>,
    line: Box<CLine>,
}

impl Kept {
    fn new() -> Kept {
        Kept {
            #[cfg(gateway_linked)]
            carry: vec![0; LONGEST],
            line: Box::new(CLine { place: 0, count: 0, buffer: [0; 1 << 17] }),
        }
    }
}

/// A workload as a line, and its dialect.
struct Line {
    workload: &'static Workload,
    dialect: u32,
}

fn lines() -> impl Iterator<Item = Line> {
    LINES.iter().map(|name| {
        let workload = WORKLOADS.iter().find(|workload| workload.name == *name).expect("a workload of the tables");
        let Task::Read(dialect) = workload.task else { panic!("{name} is no line") };
        Line { workload, dialect }
    })
}

/// Demands that every way gives the rows of the independent reader's open reading.
pub fn agree() {
    for line in lines() {
        demand_agreement(&line, &line.workload.bytes(SIZE));
    }
    println!("{} lines in calls of {CALLS:?} bytes: {} ways agree", LINES.len(), Way::ALL.len());
}

fn demand_agreement(line: &Line, bytes: &[u8]) {
    let mut expected = table_for(bytes);
    let reading = open_reading(line.dialect, bytes, &mut expected).expect("a legal dialect and length");
    let mut kept = Kept::new();
    for (&way, call) in Way::ALL.iter().flat_map(|way| CALLS.map(|call| (way, call))) {
        let mut table = table_for(bytes);
        let rows = way.run(line.dialect, call, bytes, &mut table, &mut kept);
        let what = format!("{} of {} in calls of {call}", way.name(), line.workload.name);
        assert_eq!(rows, reading.rows, "{what}");
        assert!(table[..ROW * rows] == expected[..ROW * rows], "{what}: other rows");
    }
}

/// What runs under callgrind.
pub fn run_counted() {
    let mut kept = Kept::new();
    for (index, line) in lines().enumerate() {
        let bytes = line.workload.bytes(SIZE);
        let mut table = table_for(&bytes);
        for (step, &call) in CALLS.iter().enumerate() {
            for (number, &way) in Way::ALL.iter().enumerate() {
                // Outside the count, so that the dynamic linker has done its work.
                black_box(way.run(line.dialect, call, &bytes[..64], &mut table, &mut kept));
                black_box(measured_line(way, line.dialect, call, black_box(&bytes), &mut table, &mut kept));
                mark(&format!("line {index} {step} {number}"));
            }
        }
    }
}

/// One way on one line in calls of so many bytes, each by its name in the tables.
pub fn run_one(way: &str, line: &str, call: &str) {
    let way = Way::ALL.iter().find(|known| known.name() == way).expect("a way of the tables");
    let line = lines().find(|known| known.workload.name == line).expect("a line of the tables");
    let call = call.parse().expect("a number of bytes");
    let bytes = line.workload.bytes(SIZE);
    let rows = measured_line(*way, line.dialect, call, black_box(&bytes), &mut table_for(&bytes), &mut Kept::new());
    println!("{rows} rows");
}

/// What callgrind collects of lines.
#[no_mangle]
#[inline(never)]
fn measured_line(way: Way, dialect: u32, call: usize, bytes: &[u8], table: &mut [u32], kept: &mut Kept) -> usize {
    way.run(dialect, call, bytes, table, kept)
}

/// A table with a row for each line and size of calls; `cells` gives those behind the two.
fn table_of(headings: &[String], cells: impl Fn(usize, usize) -> Vec<String>) -> Table {
    let mut table = Table::of_numbers(&[&["Line".to_owned(), "bytes a call".to_owned()], headings].concat());
    for (index, name) in LINES.iter().enumerate() {
        for (step, call) in CALLS.iter().enumerate() {
            table.row(&[vec![(*name).to_owned(), call.to_string()], cells(index, step)].concat());
        }
    }
    table
}

/// The other ways that read in calls, with their indexes.
fn others() -> impl Iterator<Item = (usize, Way)> {
    Way::ALL.iter().copied().enumerate().skip(1).filter(|(_, way)| way.is_in_calls())
}

fn megabytes(nanoseconds: f64) -> String {
    format!("{:.0}", SIZE as f64 * 1000.0 / nanoseconds)
}

/// The instructions for each byte of the line, and each other way's over the first's.
pub fn counts_table(counts: &Counts) -> Table {
    let first = Way::ALL[0].name();
    let mut headings: Vec<String> = Way::ALL.iter().map(|way| way.name().to_owned()).collect();
    headings.extend(others().map(|(_, way)| format!("{} over {first}", way.name())));
    table_of(&headings, |index, step| {
        let of = |number: usize| counts[&(index, step, number)].total as f64 / SIZE as f64;
        let own = (0..Way::ALL.len()).map(|number| format!("{:.2}", of(number)));
        own.chain(others().map(|(number, _)| short(of(number) / of(0)))).collect()
    })
}

/// Measures all lines in several series and puts the table `line times`.
pub fn measure_times(document: Option<&Path>) {
    let mut series: Vec<Vec<Vec<Vec<f64>>>> = Vec::new();
    for index in 0..SERIES {
        eprintln!("lines, series {} of {SERIES}", index + 1);
        series.push(lines().map(|line| measure_line(&line)).collect());
    }
    let mut headings = vec!["microseconds a call".to_owned()];
    headings.extend(Way::ALL.iter().map(|way| format!("{}, MB/s", way.name())));
    headings.extend(others().map(|(_, way)| format!("against {}", way.name())));
    let table = table_of(&headings, |index, step| {
        let of = |number: usize| series.iter().map(|one| one[index][step][number]).collect::<Vec<f64>>();
        let time = median(of(0));
        let mut cells = vec![format!("{:.2}", time / 1000.0 / (SIZE / CALLS[step]) as f64), megabytes(time)];
        cells.extend((1..Way::ALL.len()).map(|number| megabytes(time * median(of(number)))));
        cells.extend(others().map(|(number, _)| range(of(number))));
        cells
    });
    put(document, "line times", table.text());
}

/// For each size of calls the first way's median time in nanoseconds, then for each other way the median of its time over the
/// first's.
fn measure_line(line: &Line) -> Vec<Vec<f64>> {
    let bytes = line.workload.bytes(SIZE);
    let mut table = table_for(&bytes);
    let mut kept = Kept::new();
    let mut time = |way: Way, call: usize| {
        let start = clock();
        black_box(way.run(line.dialect, call, black_box(&bytes), black_box(&mut table), &mut kept));
        (clock() - start) as f64
    };
    let mut measure = |call: usize| {
        let rounds = (0..ROUNDS).map(|_| Way::ALL.iter().map(|&way| time(way, call)).collect()).collect();
        medians(rounds)
    };
    CALLS.iter().map(|&call| measure(call)).collect()
}
