//! The speed table: the gateway library beside other readers of the same wires.
//!
//! `times` and `counts` measure; each puts its tables into the document that is named, between the lines that name the
//! table, or prints them.

#![deny(unsafe_code)]

mod counts;
mod document;
mod feeding;
#[cfg(feature = "nom")]
mod nom_reader;
mod peers;
mod plot;
mod times;
mod workloads;

use std::path::PathBuf;

const USAGE: &str = "usage: radar-bench agree | times [DOCUMENT] | counts [DOCUMENT PLOT] | one PEER WORKLOAD [BYTES]
       radar-bench line WAY LINE CALL
  agree   all readers on all workloads, 64 KiB to 1 MiB: the same answers; all ways to read a line
  times   the ratios of the times on 1 MiB
  counts  the instructions by callgrind, from 64 KiB to 1 MiB, and their plot
  one     one run on 1 MiB or so many bytes, to be looked at under callgrind with --toggle-collect=measured
  line    one line of 1 MiB in calls of CALL bytes, with --toggle-collect=measured_line";

/// By doubling, up to the most bytes that one call is lent.
const SIZES: [usize; 5] = [64 << 10, 128 << 10, 256 << 10, 512 << 10, 1 << 20];

fn main() {
    let arguments: Vec<String> = std::env::args().skip(1).collect();
    let words: Vec<&str> = arguments.iter().map(String::as_str).collect();
    match words[..] {
        ["agree"] => agree(),
        ["times"] => times::measure(None),
        ["times", document] => times::measure(Some(&PathBuf::from(document))),
        ["counts"] => counts::measure(None, None),
        ["counts", document, plot] => counts::measure(Some(&PathBuf::from(document)), Some(&PathBuf::from(plot))),
        ["counted"] => counts::run_counted(),
        ["one", peer, workload] => counts::run_one(peer, workload, SIZES[SIZES.len() - 1]),
        ["one", peer, workload, size] => counts::run_one(peer, workload, size.parse().expect("a number of bytes")),
        ["line", way, line, call] => feeding::run_one(way, line, call),
        _ => {
            eprintln!("{USAGE}");
            std::process::exit(2);
        }
    }
}

fn agree() {
    for workload in &workloads::WORKLOADS {
        for size in SIZES {
            peers::demand_agreement(workload, &workload.bytes(size));
        }
    }
    println!("{} workloads: {} readers agree", workloads::WORKLOADS.len(), peers::Peer::ALL.len() - 1);
    feeding::agree();
}
