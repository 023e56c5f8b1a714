//! Writes a generated capture to standard output.
//!
//! `capture DIALECT FAMILY SEED LENGTH`, with DIALECT `sirad`, `mmwave` or `vital-signs` and FAMILY `clean`, `noisy`, `cut`,
//! `damaged` or `hostile`, writes at most LENGTH bytes. `capture points SEED PACKETS` writes mmWave packets of a few points
//! each, with noise between them; `capture monitor SEED PACKETS` writes vital-signs packets as a monitor sends them, with
//! noise, damaged ones and false starts; `capture targets SEED FRAMES` writes SiRad T frames of two targets and empty blocks
//! of both forms, with noise and broken ones; `capture doorway SEED` writes mmWave packets of points near a door, with noise
//! and a broken packet around a true one. `capture example` writes the 25 bytes of paper 01's listing.

use std::env;
use std::io::{self, Write};
use std::process::ExitCode;

use radar_reference::generate::{capture, dialect_named, doorway, monitor, points, targets, Family, LISTING_EXAMPLE};

fn main() -> ExitCode {
    let arguments: Vec<String> = env::args().skip(1).collect();
    let arguments: Vec<&str> = arguments.iter().map(String::as_str).collect();
    let Some(bytes) = bytes_of(&arguments) else {
        eprintln!("usage: capture sirad|mmwave|vital-signs clean|noisy|cut|damaged|hostile SEED LENGTH");
        eprintln!("       capture points|monitor SEED PACKETS");
        eprintln!("       capture targets SEED FRAMES");
        eprintln!("       capture doorway SEED");
        eprintln!("       capture example");
        return ExitCode::from(2);
    };
    match io::stdout().write_all(&bytes) {
        Ok(()) => ExitCode::SUCCESS,
        Err(error) => {
            eprintln!("capture: {error}");
            ExitCode::FAILURE
        }
    }
}

fn bytes_of(arguments: &[&str]) -> Option<Vec<u8>> {
    match *arguments {
        ["example"] => Some(LISTING_EXAMPLE.to_vec()),
        ["points", seed, packets] => Some(points(seed.parse().ok()?, packets.parse().ok()?)),
        ["monitor", seed, packets] => Some(monitor(seed.parse().ok()?, packets.parse().ok()?)),
        ["targets", seed, frames] => Some(targets(seed.parse().ok()?, frames.parse().ok()?)),
        ["doorway", seed] => Some(doorway::sample(seed.parse().ok()?)),
        [dialect, family, seed, length] => {
            Some(capture(dialect_named(dialect)?, Family::named(family)?, seed.parse().ok()?, length.parse().ok()?))
        }
        _ => None,
    }
}
