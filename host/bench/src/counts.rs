//! Instructions by callgrind: exact, whatever else the machine does. One process under callgrind runs every peer on every
//! workload and size, and every way to read a line; collecting is on inside the functions [`MEASURED`] alone, and a mark
//! behind each run writes its counts.

#![allow(unsafe_code)]

use std::collections::HashMap;
use std::ffi::CString;
use std::fs;
use std::hint::black_box;
use std::path::Path;
use std::process::{Command, Stdio};

use crate::document::{put, short, Table};
use crate::feeding;
use crate::peers::{table_for, Peer};
use crate::plot;
use crate::workloads::{Task, WORKLOADS};
use crate::SIZES;

extern "C" {
    fn mark_counts(name: *const std::ffi::c_char) -> i32;
}

/// The instructions of one run, and those of its functions.
pub struct Count {
    /// All of them.
    pub total: u64,
    functions: Vec<(String, u64)>,
}

/// The functions inside which callgrind collects.
const MEASURED: [&str; 2] = ["measured", "measured_line"];

/// Counts by workload, size and peer, or by line, size of calls and way, each by its index.
pub type Counts = HashMap<(usize, usize, usize), Count>;

/// Runs itself under callgrind, puts the tables `counts`, `growth`, `functions` and `lines`, and draws the plot.
pub fn measure(document: Option<&Path>, picture: Option<&Path>) {
    crate::agree();
    let directory = std::env::temp_dir().join(format!("radar-bench-{}", std::process::id()));
    fs::create_dir_all(&directory).expect("a directory for callgrind's files");
    let output = directory.join("counts");
    let status = Command::new("valgrind")
        .args(["--tool=callgrind", "--quiet"])
        .args(MEASURED.map(|name| format!("--toggle-collect={name}")))
        .arg(format!("--callgrind-out-file={}", output.display()))
        .arg(std::env::current_exe().expect("the program's own path"))
        .arg("counted")
        .stdout(Stdio::null())
        .status()
        .expect("valgrind");
    assert!(status.success(), "valgrind: {status}");
    let (mut counts, mut lines) = (Counts::new(), Counts::new());
    for entry in fs::read_dir(&directory).expect("callgrind's files") {
        let text = fs::read(entry.expect("a file").path()).expect("a readable file");
        let text = String::from_utf8_lossy(&text);
        counts.extend(parse("run", &text));
        lines.extend(parse("line", &text));
    }
    fs::remove_dir_all(&directory).expect("callgrind's files can go");
    put(document, "counts", counts_table(&counts).text());
    put(document, "growth", growth_table(&counts).text());
    put(document, "functions", functions_table(&counts).text());
    put(document, "lines", feeding::counts_table(&lines).text());
    if let Some(path) = picture {
        fs::write(path, plot::draw(&counts)).unwrap_or_else(|problem| panic!("{}: {problem}", path.display()));
    }
}

/// What runs under callgrind.
pub fn run_counted() {
    for (index, workload) in WORKLOADS.iter().enumerate() {
        for (step, &size) in SIZES.iter().enumerate() {
            let bytes = workload.bytes(size);
            let mut table = table_for(&bytes);
            for (number, &peer) in Peer::ALL.iter().enumerate().filter(|(_, peer)| peer.can(workload.task)) {
                // Outside the count, so that the dynamic linker has done its work.
                black_box(peer.run(workload.task, &bytes[..64], &mut table));
                black_box(measured(peer, workload.task, black_box(&bytes), &mut table));
                mark(&format!("run {index} {step} {number}"));
            }
        }
    }
    feeding::run_counted();
}

/// Writes what callgrind has counted under this name.
pub fn mark(name: &str) {
    let name = CString::new(name).expect("no zero byte");
    // SAFETY: the name is a C string.
    assert_eq!(unsafe { mark_counts(name.as_ptr()) }, 1, "built without valgrind/callgrind.h");
}

/// One peer on one workload of this size, each by its name in the tables.
pub fn run_one(peer: &str, workload: &str, size: usize) {
    let peer = Peer::ALL.iter().find(|known| known.name() == peer).expect("a peer of the tables");
    let workload = WORKLOADS.iter().find(|known| known.name == workload).expect("a workload of the tables");
    let bytes = workload.bytes(size);
    let mut table = table_for(&bytes);
    println!("{:?}", measured(*peer, workload.task, black_box(&bytes), &mut table));
}

/// What callgrind collects of readings, conversions, phases and questions.
#[no_mangle]
#[inline(never)]
pub fn measured(peer: Peer, task: Task, bytes: &[u8], table: &mut [u32]) -> (usize, usize) {
    peer.run(task, bytes, table)
}

/// One of callgrind's files: the run that its mark names, if it is of this kind, and the instructions of each function without
/// its callees.
fn parse(kind: &str, text: &str) -> Option<((usize, usize, usize), Count)> {
    let mark = format!("desc: Trigger: Client Request: {kind} ");
    let mark = text.lines().find_map(|line| line.strip_prefix(&mark))?;
    let key: Vec<usize> = mark.split_whitespace().map(|word| word.parse().expect("a number")).collect();
    let total = text.lines().find_map(|line| line.strip_prefix("totals: ")).expect("a total");
    let total = total.trim().parse().expect("a number");
    let mut names: HashMap<&str, &str> = HashMap::new();
    let mut own: HashMap<&str, u64> = HashMap::new();
    let (mut function, mut called) = ("", false);
    for line in text.lines() {
        if let Some(name) = line.strip_prefix("fn=").or(line.strip_prefix("cfn=")) {
            // The first time with its name: "(12) name"; then its number alone.
            let (number, name) = name.split_once(' ').unwrap_or((name, ""));
            if !name.is_empty() {
                // A function that calls itself is "name" and then "name'2".
                names.insert(number, name.split_once('\'').map_or(name, |(name, _)| name));
            }
            if line.starts_with("fn=") {
                function = number;
            }
        } else if line.starts_with("calls=") {
            called = true;
        } else if line.starts_with(|first: char| first.is_ascii_digit() || "+-*".contains(first)) {
            // The line behind a call has the callee's cost.
            let cost: u64 = line.split_whitespace().nth(1).map_or(0, |cost| cost.parse().expect("a number"));
            *own.entry(function).or_default() += if called { 0 } else { cost };
            called = false;
        }
    }
    let mut named: HashMap<&str, u64> = HashMap::new();
    for (number, cost) in own {
        *named.entry(names.get(number).unwrap_or(&number)).or_default() += cost;
    }
    let mut functions: Vec<(String, u64)> = named.into_iter().map(|(name, cost)| (name.to_owned(), cost)).collect();
    functions.sort_by_key(|(_, cost)| std::cmp::Reverse(*cost));
    Some(((key[0], key[1], key[2]), Count { total, functions }))
}

/// Instructions for each byte of the workload at the given size.
pub fn per_byte(counts: &Counts, workload: usize, step: usize, peer: usize) -> Option<f64> {
    Some(counts.get(&(workload, step, peer))?.total as f64 / SIZES[step] as f64)
}

fn counts_table(counts: &Counts) -> Table {
    let mut headings = vec!["Workload".to_owned()];
    headings.extend(Peer::ALL.iter().map(|peer| peer.name().to_owned()));
    headings.extend(["plain C over gateway".to_owned(), "best reader over gateway".to_owned()]);
    let mut table = Table::of_numbers(&headings);
    let of_c = Peer::ALL.iter().position(|&peer| peer == Peer::C).expect("plain C is always there");
    for (index, workload) in WORKLOADS.iter().enumerate() {
        let of = |peer| per_byte(counts, index, SIZES.len() - 1, peer);
        let mut cells = vec![workload.name.to_owned()];
        cells.extend((0..Peer::ALL.len()).map(|peer| of(peer).map_or(String::new(), |count| format!("{count:.2}"))));
        let ours = of(0).expect("the first peer has every task");
        let others = (1..Peer::ALL.len()).filter(|&peer| Peer::ALL[peer].reads()).filter_map(of);
        cells.push(short(of(of_c).expect("plain C has every task") / ours));
        cells.push(short(others.fold(f64::INFINITY, f64::min) / ours));
        table.row(&cells);
    }
    table
}

fn growth_table(counts: &Counts) -> Table {
    let mut headings = vec!["Workload".to_owned()];
    headings.extend(SIZES.windows(2).map(|pair| format!("{} to {} KiB", pair[0] >> 10, pair[1] >> 10)));
    let mut table = Table::of_numbers(&headings);
    for (index, workload) in WORKLOADS.iter().enumerate() {
        let total = |step| counts[&(index, step, 0)].total as f64;
        let mut cells = vec![workload.name.to_owned()];
        cells.extend((1..SIZES.len()).map(|step| format!("{:.3}", total(step) / total(step - 1))));
        table.row(&cells);
    }
    table
}

/// The functions that take most of the first peer's instructions at the greatest size.
fn functions_table(counts: &Counts) -> Table {
    let mut table = Table::of_words(&["Workload".to_owned(), "Functions and their share".to_owned()]);
    for (index, workload) in WORKLOADS.iter().enumerate() {
        let count = &counts[&(index, SIZES.len() - 1, 0)];
        let shares =
            count.functions.iter().take(3).map(|(name, cost)| (name, 100.0 * *cost as f64 / count.total as f64));
        let shares: Vec<String> =
            shares.filter(|(_, share)| *share >= 1.0).map(|(name, share)| format!("`{name}` {share:.0} %")).collect();
        table.row(&[workload.name.to_owned(), shares.join(", ")]);
    }
    table
}
