//! The sample captures are what their commands make, and their listings are what the reader has.

use std::fs;
use std::path::PathBuf;

use radar_reference::generate::{capture, doorway, monitor, points, targets, Family, LISTING_EXAMPLE};
use radar_reference::judgement::{judge, Judgement, MMWAVE, SIRAD, VITAL_SIGNS};
use radar_reference::listing::listing;
use radar_reference::packet::{point, record, Point};
use radar_reference::proximity::{anyone_close, every_point};
use radar_reference::reading::{closed_reading, open_reading, ROW};
use radar_reference::sirad_fields::{read_targets, Target};

/// Where the captures are, from this package.
const DIRECTORY: &str = "../../captures";

fn file(name: &str) -> PathBuf {
    [env!("CARGO_MANIFEST_DIR"), DIRECTORY, name].iter().collect()
}

/// Compares both files, or writes them if `VQ_WRITE_CAPTURES` is set.
fn check(name: &str, dialect: u32, made: &[u8]) {
    let (bytes, lines) = (file(&format!("{name}.bin")), file(&format!("{name}.txt")));
    if std::env::var_os("VQ_WRITE_CAPTURES").is_some() {
        fs::write(&bytes, made).unwrap();
        fs::write(&lines, listing(dialect, made)).unwrap();
    }
    assert!(fs::read(bytes).unwrap() == made, "{name} is not what its command makes");
    assert_eq!(fs::read_to_string(lines).unwrap(), listing(dialect, made), "{name}");
}

#[test]
fn the_listing_example() {
    check("listing-example", SIRAD, LISTING_EXAMPLE);
    let lines = fs::read_to_string(file("listing-example.txt")).unwrap();
    assert_eq!(lines, "kind\tplace\tlength\nE\t0\t8\nE\t17\t8\nend\t25\t9\n");
}

#[test]
fn sirad_with_noise_has_all_kinds() {
    let made = capture(SIRAD, Family::Noisy, 7, 1500);
    check("sirad-mix", SIRAD, &made);
    let lines = listing(SIRAD, &made);
    for letter in ["R", "P", "C", "T", "U", "E"] {
        assert!(lines.lines().any(|line| line.starts_with(&format!("{letter}\t"))), "{letter}");
    }
}

/// The reasons that come at the places of these bytes, each once.
fn reasons(dialect: u32, bytes: &[u8]) -> Vec<u32> {
    let judgements = (0..bytes.len()).map(|place| judge(dialect, bytes, place));
    let mut reasons: Vec<u32> = judgements
        .filter_map(|judgement| match judgement {
            Ok(Judgement::Bad { reason }) => Some(reason),
            _ => None,
        })
        .collect();
    reasons.sort_unstable();
    reasons.dedup();
    reasons
}

#[test]
fn sirad_hostile_has_all_reasons() {
    let made = capture(SIRAD, Family::Hostile, 22, 1500);
    check("sirad-hostile", SIRAD, &made);
    assert_eq!(reasons(SIRAD, &made), [10, 11, 12, 13, 14, 17]);
}

#[test]
fn sirad_empty_blocks_of_both_forms() {
    let made = targets(4, 8);
    check("sirad-empty-blocks", SIRAD, &made);
    let mut table = [0; ROW * 9];
    let reading = closed_reading(SIRAD, &made, &mut table).unwrap();
    let mut forms = [0; 2];
    for row in table.chunks_exact(ROW).take(reading.rows) {
        let frame = &made[row[0] as usize..][..row[1] as usize];
        let blocks = read_targets(frame).unwrap().blocks;
        assert!(blocks[..2].iter().all(|target| target.empty == 0 && target.distance > 0));
        assert_eq!(blocks[2..], [Target { empty: 1, ..Target::default() }; 14]);
        forms[usize::from(frame[32] == 0)] += 1;
    }
    // The sixth is broken.
    assert_eq!((reading.rows, forms), (7, [4, 3]));
    let broken = (0..made.len()).filter(|&place| judge(SIRAD, &made, place) == Ok(Judgement::Bad { reason: 17 }));
    assert_eq!(broken.count(), 1);
}

#[test]
fn mmwave_points() {
    let made = points(5, 8);
    check("mmwave-points", MMWAVE, &made);
    let mut table = [0; ROW * 9];
    let reading = closed_reading(MMWAVE, &made, &mut table).unwrap();
    assert_eq!(reading.rows, 8);
    let [place, length] = [0, 1].map(|index| table[index] as usize);
    let first = |edition| point(edition, &made[place..place + length], 0);
    assert_eq!(first(1), Ok(Point { x: 63, y: -63, z: 1500, doppler: 0 }));
    assert_eq!(first(2), Ok(Point { x: 62, y: -62, z: 1500, doppler: 0 }));
}

#[test]
fn mmwave_close_points() {
    let made = doorway::sample(2);
    check("mmwave-close", MMWAVE, &made);
    let points = every_point(1, &made).unwrap();
    let refusals = points.iter().filter_map(|located| located.point.err());
    assert_eq!((points.len(), refusals.collect::<Vec<_>>()), (9, vec![30, 31, 30]));
    let found = |edition, distance| {
        let close = anyone_close(MMWAVE, edition, distance, &made).unwrap()?;
        let Point { x, y, z, .. } = close.point.unwrap();
        Some((close.place, close.index, [x, y, z]))
    };
    // Inside the broken packet, behind two points that are refused; then at 62.5 mm.
    let (at_door, at_a_half) = (328, 549);
    for edition in [1, 2] {
        assert_eq!(found(edition, 500), Some((at_door, 2, [-500, 300, -125])));
        assert_eq!(found(edition, 250), Some((at_door, 3, [250, 250, 250])));
        assert_eq!(found(edition, 61), None);
    }
    assert_eq!((found(1, 63), found(1, 62)), (Some((at_a_half, 1, [63, -63, 63])), None));
    assert_eq!(found(2, 62), Some((at_a_half, 1, [62, -62, 62])));
    // The last packet breaks off, and the line waits for the rest of it.
    let open = open_reading(MMWAVE, &made, &mut [0; 300]).unwrap();
    assert_eq!((open.next, judge(MMWAVE, &made, open.next)), (made.len() - 90, Ok(Judgement::Waiting)));
    assert_eq!(reasons(MMWAVE, &made), [20, 24]);
}

#[test]
fn mmwave_hostile_waits_in_the_middle() {
    let made = capture(MMWAVE, Family::Hostile, 353, 3000);
    check("mmwave-hostile", MMWAVE, &made);
    let mut table = [0; 300];
    let open = open_reading(MMWAVE, &made, &mut table).unwrap();
    let closed = closed_reading(MMWAVE, &made, &mut table).unwrap();
    assert!(open.next < 1000 && open.rows < closed.rows);
    assert_eq!(reasons(MMWAVE, &made), [20, 21, 22, 23, 24, 25]);
    // Two records of type 1; 4 and 8; 8 and 4: what follows each is read.
    let word = |place: usize| u32::from_le_bytes(made[place..place + 4].try_into().unwrap());
    for (place, types) in [(496, [(40, 1), (112, 1)]), (956, [(226, 4), (234, 8)]), (2682, [(72, 8), (169, 4)])] {
        assert_eq!(judge(MMWAVE, &made, place), Ok(Judgement::Bad { reason: 25 }));
        assert_eq!(types.map(|(at, _)| word(place + at)), types.map(|(_, record_type)| record_type));
        assert!(table.chunks_exact(ROW).take(closed.rows).any(|row| row[0] as usize > place));
    }
    // Seven records of type 10, which may repeat.
    let whole = &made[752..752 + 96];
    let types = (0..7).map(|index| record(16, whole, index).map(|record| record.record_type));
    assert_eq!(types.collect::<Vec<_>>(), [Ok(10); 7]);
}

#[test]
fn a_vital_signs_monitor_sends_all_four_types() {
    let made = monitor(14, 9);
    check("vital-signs-monitor", VITAL_SIGNS, &made);
    let mut table = [0; ROW * 9];
    let reading = closed_reading(VITAL_SIGNS, &made, &mut table).unwrap();
    let mut types = [0; 5];
    for row in table.chunks_exact(ROW).take(reading.rows) {
        let packet = &made[row[0] as usize..][..row[1] as usize];
        (0..)
            .map_while(|index| record(17, packet, index).ok())
            .for_each(|record| types[record.record_type as usize] += 1);
    }
    assert!(types[1..].iter().all(|&count| count > 1), "{types:?}");
    // Three are damaged at a fixed field or the count, and two false starts break off.
    let reasons = (0..made.len()).filter_map(|place| match judge(VITAL_SIGNS, &made, place) {
        Ok(Judgement::Bad { reason }) if reason > 20 => Some(reason),
        _ => None,
    });
    let reasons: Vec<u32> = reasons.collect();
    assert_eq!((reading.rows, reasons.len()), (6, 5), "{reasons:?}");
    assert!(reasons.contains(&22) && reasons.contains(&26), "{reasons:?}");
}

#[test]
fn vital_signs_hostile_waits_in_the_middle() {
    let made = capture(VITAL_SIGNS, Family::Hostile, 19, 3000);
    check("vital-signs-hostile", VITAL_SIGNS, &made);
    let mut table = [0; 300];
    let open = open_reading(VITAL_SIGNS, &made, &mut table).unwrap();
    let closed = closed_reading(VITAL_SIGNS, &made, &mut table).unwrap();
    assert!(open.next < 1000 && open.rows < closed.rows);
    assert_eq!(reasons(VITAL_SIGNS, &made), [20, 21, 22, 23, 24, 26]);
}
