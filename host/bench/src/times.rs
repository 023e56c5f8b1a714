//! Times as ratios: the peers take turns in one process, many short runs each, by the process's own clock, so that what
//! else the machine does falls on all of them.

#![allow(unsafe_code)]

use std::hint::black_box;
use std::path::Path;

use crate::document::{put, short, Table};
use crate::feeding;
use crate::peers::{demand_agreement, table_for, Peer};
use crate::workloads::{Workload, WORKLOADS};

const SIZE: usize = 1 << 20;
/// The series of every table of times.
pub const SERIES: usize = 5;
const ROUNDS: usize = 21;

extern "C" {
    fn cpu_nanoseconds() -> u64;
}

/// Measures all workloads in several series and puts the table `times`, then that of the lines.
pub fn measure(document: Option<&Path>) {
    let mut series: Vec<Vec<Vec<f64>>> = Vec::new();
    for index in 0..SERIES {
        eprintln!("series {} of {SERIES}", index + 1);
        series.push(WORKLOADS.iter().map(measure_one).collect());
    }
    let (first, others) = Peer::ALL.split_first().expect("there are peers");
    let mut headings = vec!["Workload".to_owned(), format!("{}, MB/s", first.name())];
    headings.extend(others.iter().map(|peer| format!("against {}", peer.name())));
    let mut table = Table::of_numbers(&headings);
    for (index, workload) in WORKLOADS.iter().enumerate() {
        let of = |peer: usize| series.iter().map(|one| one[index][peer]).collect::<Vec<f64>>();
        let mut cells = vec![workload.name.to_owned(), format!("{:.0}", SIZE as f64 * 1000.0 / median(of(0)))];
        for (peer, other) in others.iter().enumerate() {
            cells.push(if other.can(workload.task) { range(of(peer + 1)) } else { String::new() });
        }
        table.row(&cells);
    }
    put(document, "times", table.text());
    feeding::measure_times(document);
}

/// The median and, in brackets, the least and the greatest.
pub fn range(mut ratios: Vec<f64>) -> String {
    ratios.sort_by(f64::total_cmp);
    let (least, greatest) = (ratios[0], ratios[ratios.len() - 1]);
    format!("{} ({} to {})", short(median(ratios)), short(least), short(greatest))
}

/// The first peer's median time in nanoseconds, then for each other peer the median of its time over the first's.
fn measure_one(workload: &Workload) -> Vec<f64> {
    let bytes = workload.bytes(SIZE);
    demand_agreement(workload, &bytes);
    let mut table = table_for(&bytes);
    let mut rounds: Vec<Vec<f64>> = Vec::new();
    for _ in 0..ROUNDS {
        let time = |&peer: &Peer| if peer.can(workload.task) { time(peer, workload, &bytes, &mut table) } else { 1.0 };
        rounds.push(Peer::ALL.iter().map(time).collect());
    }
    medians(rounds)
}

/// Of rounds in which each takes its turn: the first one's median time, then for each other one the median of its time over
/// the first's.
pub fn medians(rounds: Vec<Vec<f64>>) -> Vec<f64> {
    let over_first = |index: usize| rounds.iter().map(|round| round[index] / round[0]).collect();
    let mut answer = vec![median(rounds.iter().map(|round| round[0]).collect())];
    answer.extend((1..rounds[0].len()).map(|index| median(over_first(index))));
    answer
}

fn time(peer: Peer, workload: &Workload, bytes: &[u8], table: &mut [u32]) -> f64 {
    let start = clock();
    black_box(peer.run(workload.task, black_box(bytes), black_box(table)));
    (clock() - start) as f64
}

/// The process's own time in nanoseconds.
pub fn clock() -> u64 {
    // SAFETY: it reads a clock.
    unsafe { cpu_nanoseconds() }
}

/// The value in the middle.
pub fn median(mut values: Vec<f64>) -> f64 {
    values.sort_by(f64::total_cmp);
    values[values.len() / 2]
}
