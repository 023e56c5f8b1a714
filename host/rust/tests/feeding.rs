//! The feeder (paper 02 (iii)) call by call with values written out by hand, the library's feeder against the reader's, and
//! the comparison against feeders that are wrong on purpose.
//!
//! The library is compared if `VQ_LIB_DIR` names the directory that holds `libvellanquor.a`. `VQ_SEED` gives another first
//! seed than the usual one.

mod tags;

use radar_reference::abi::feeding::{Fed, FeedSubject, Stream};
use radar_reference::abi::{Reference, Subject, WAITING};
use radar_reference::compare::feeding::{
    check_feeding, compare_cuttings, compare_long_lines, compare_made_up, compare_streams, Asked,
};
use radar_reference::compare::{first_seed, Difference, Tally};
use radar_reference::generate::random::Random;
use radar_reference::generate::{capture, Family};
use radar_reference::judgement::{DIALECTS, MMWAVE, SIRAD, VITAL_SIGNS};
use radar_reference::mmwave::is_excluded;
use radar_reference::reading::ROW;
use radar_reference::refusal::MAX_BYTES;
use tags::{repeated, tags};

const CALLS: u64 = 600_000;
const MADE_UP: u64 = 200_000;

/// The four runs, those over the most calls last.
const RUNS: [(&str, fn(&dyn FeedSubject) -> Result<Tally, Difference>); 4] = [
    ("made-up streams", |subject| compare_made_up(subject, first_seed(), MADE_UP)),
    ("streams", |subject| compare_streams(subject, Asked::Calls, first_seed(), CALLS)),
    ("long lines", |subject| compare_long_lines(subject, Asked::Calls, first_seed())),
    ("cuttings", |subject| compare_cuttings(subject, Asked::Calls, first_seed())),
];

/// The same without the reader's feeder: the request's sentence on the subject's own answers.
const RUNS_AS_ONE: [(&str, fn(&dyn FeedSubject) -> Result<Tally, Difference>); 3] = [
    ("streams", |subject| compare_streams(subject, Asked::AsOne, first_seed(), CALLS)),
    ("long lines", |subject| compare_long_lines(subject, Asked::AsOne, first_seed())),
    ("cuttings", |subject| compare_cuttings(subject, Asked::AsOne, first_seed())),
];

/// Each answer must come so often at least in each run.
const SEEN: [&[(&str, u64)]; 4] = [
    &[
        ("no row", 10_000),
        ("rows", 10_000),
        ("refused 1", 1000),
        ("refused 3", 10_000),
        ("refused 60", 1000),
        ("refused 61", 10_000),
        ("refused 62", 10_000),
    ],
    &[
        ("no row", 10_000),
        ("rows", 3000),
        ("refused 1", 5000),
        ("refused 3", 2000),
        ("refused 60", 500),
        ("refused 61", 1000),
        ("refused 62", 1000),
    ],
    &[("no row", 100), ("rows", 1000), ("refused 3", 9)],
    &[("no row", 100_000), ("rows", 100_000), ("refused 60", 100_000), ("refused 61", 100_000)],
];

fn assert_agrees(subject: &dyn FeedSubject) {
    for ((name, run), seen) in RUNS.into_iter().zip(SEEN) {
        let tally = run(subject).unwrap_or_else(|difference| panic!("{name}: {difference}"));
        println!("{name}: {tally}");
        for &(answer, least) in seen {
            assert!(tally.of(answer) >= least, "{name}: {answer} in {tally}");
        }
    }
}

fn assert_as_one(subject: &dyn FeedSubject) {
    for (name, run) in RUNS_AS_ONE {
        let tally = run(subject).unwrap_or_else(|difference| panic!("{name}, as one: {difference}"));
        println!("{name}, as one: {tally}");
    }
}

#[cfg(gateway_linked)]
mod library {
    use super::*;
    use radar_reference::gateway::Gateway;

    #[test]
    fn calls_agree() {
        assert_agrees(&Gateway);
    }

    #[test]
    fn accepted_calls_are_as_one_reading() {
        assert_as_one(&Gateway);
    }
}

#[test]
fn the_calls_that_are_compared_cover_all_answers() {
    assert_agrees(&Reference);
}

#[test]
fn the_readers_own_calls_are_as_one_reading() {
    assert_as_one(&Reference);
}

// Calls one by one.

/// The bytes and numbers that stand in a carry and a table before a call.
const FILLER: u8 = 170;
const NUMBER: u32 = 77;

fn subjects() -> Vec<&'static dyn FeedSubject> {
    vec![
        &Reference,
        #[cfg(gateway_linked)]
        &radar_reference::gateway::Gateway,
    ]
}

const fn stream(place: u64, waiting: u64) -> Stream {
    Stream { place, waiting }
}

/// A call with these bytes waiting in a carry of `room` bytes must give these rows and leave these bytes waiting, or be refused;
/// all else in both buffers stays.
fn assert_fed(
    dialect: u32,
    (before, waiting): (Stream, &[u8]),
    room: usize,
    bytes: &[u8],
    numbers: usize,
    expected: Result<(&[[u32; ROW]], Stream, &[u8]), u32>,
) {
    for subject in subjects() {
        let mut carry = waiting.to_vec();
        carry.resize(room, FILLER);
        let mut table = vec![NUMBER; numbers];
        let (mut carry_after, mut table_after) = (carry.clone(), table.clone());
        let fed = subject.feed(dialect, before, &mut carry, bytes, &mut table);
        match expected {
            Ok((rows, after, rest)) => {
                assert_eq!(fed, Fed { refusal: 0, rows: rows.len() as u64, stream: after }, "{bytes:?}");
                table_after[..ROW * rows.len()].copy_from_slice(rows.as_flattened());
                carry_after[..rest.len()].copy_from_slice(rest);
            }
            Err(refusal) => assert_eq!(fed, Fed { refusal, rows: 0, stream: before }, "{bytes:?}"),
        }
        assert_eq!((carry, table), (carry_after, table_after), "{bytes:?}");
    }
}

const FRESH: (Stream, &[u8]) = (stream(0, 0), b"");

#[test]
fn a_stream_of_calls() {
    assert_fed(SIRAD, FRESH, 8, b"", 0, Ok((&[], stream(0, 0), b"")));
    assert_fed(SIRAD, FRESH, 0, b"noise", 0, Ok((&[], stream(5, 0), b"")));
    assert_fed(SIRAD, FRESH, 8, b" !E00", 3, Ok((&[], stream(1, 4), b"!E00")));
    let waits: (Stream, &[u8]) = (stream(1, 4), b"!E00");
    assert_fed(SIRAD, waits, 8, b"", 3, Ok((&[], stream(1, 4), b"!E00")));
    assert_fed(SIRAD, waits, 8, b"0", 3, Ok((&[], stream(1, 5), b"!E000")));
    assert_fed(SIRAD, waits, 8, b"00\r\n", 3, Ok((&[[1, 8, 6]], stream(9, 0), b"")));
    assert_fed(SIRAD, waits, 8, b"00\r\n!!R", 4, Ok((&[[1, 8, 6]], stream(10, 2), b"!R")));
    assert_fed(SIRAD, waits, 8, b"00\r\n !E0001\r\n", 9, Ok((&[[1, 8, 6], [10, 8, 6]], stream(18, 0), b"")));
    // What waited is given up at the byte that fails, and a frame inside it is found.
    assert_fed(SIRAD, waits, 4, b"G", 0, Ok((&[], stream(6, 0), b"")));
    assert_fed(SIRAD, waits, 4, b"!E", 0, Ok((&[], stream(5, 2), b"!E")));
    let false_start: (Stream, &[u8]) = (stream(100, 8), b"!R000!E0");
    assert_fed(SIRAD, false_start, 8, b"00F\r\n", 3, Ok((&[[105, 8, 6]], stream(113, 0), b"")));
}

fn packet(fields: &[u32]) -> Vec<u8> {
    let magic = [2, 1, 4, 3, 6, 5, 8, 7];
    magic.into_iter().chain(fields.iter().flat_map(|field| field.to_le_bytes())).collect()
}

#[test]
fn packets_of_both_dialects() {
    let mmwave = packet(&[1, 64, 3, 4, 5, 6, 0, 0, 0, 0, 0, 0, 0, 0]);
    let vital_signs = packet(&[1, 40, 3, 4, 5, 99, 0, 0]);
    for (dialect, packet, kind) in [(MMWAVE, mmwave, 16), (VITAL_SIGNS, vital_signs, 17)] {
        let length = packet.len();
        for cut in 0..length {
            let (front, rest) = packet.split_at(cut);
            assert_fed(dialect, FRESH, length, front, 0, Ok((&[], stream(0, cut as u64), front)));
            let waits = (stream(7, cut as u64), front);
            let row = [7, length as u32, kind];
            let behind = [rest, &[2, 1]].concat();
            assert_fed(dialect, waits, length, &behind, 3, Ok((&[row], stream(7 + length as u64, 2), &[2, 1])));
        }
    }
}

/// A type that comes again is given up when its fourth byte is there, wherever the bytes were cut (paper 02 (vii)); the same
/// bytes are a vital-signs packet.
#[test]
fn a_repeated_type_across_calls() {
    let packet = packet(&[1, 96, 3, 4, 5, 99, 3, 0, 2, 16, 0, 0, 0, 0, 3, 0, 2, 16, 0, 0, 0, 0]);
    assert_eq!(packet.len(), 96);
    for cut in 0..96 {
        let (front, rest) = packet.split_at(cut);
        let waits = (stream(7, cut as u64), front);
        let row = [7, 96, 17];
        assert_fed(VITAL_SIGNS, waits, 96, rest, 3, Ok((&[row], stream(103, 0), b"")));
        if cut < 76 {
            // Nothing else in the packet looks like a magic.
            assert_fed(MMWAVE, FRESH, 96, front, 0, Ok((&[], stream(0, cut as u64), front)));
            assert_fed(MMWAVE, waits, 96, &packet[cut..75], 0, Ok((&[], stream(7, 75), &packet[..75])));
            assert_fed(MMWAVE, waits, 96, &packet[cut..76], 0, Ok((&[], stream(83, 0), b"")));
            assert_fed(MMWAVE, waits, 96, &[rest, &[2, 1]].concat(), 0, Ok((&[], stream(103, 2), &[2, 1])));
        }
    }
}

#[test]
fn refusals_of_carry_and_table() {
    assert_fed(SIRAD, FRESH, 3, b"?!E00", 3, Err(60));
    assert_fed(SIRAD, FRESH, 4, b"?!E00", 3, Ok((&[], stream(1, 4), b"!E00")));
    assert_fed(SIRAD, FRESH, 0, b"!", 0, Err(60));
    assert_fed(SIRAD, (stream(3, 4), b"!E00"), 4, b"0", 3, Err(60));
    assert_fed(SIRAD, FRESH, 0, b"!E0000\r\n", 2, Err(61));
    assert_fed(SIRAD, FRESH, 0, b"!E0000\r\n", 3, Ok((&[[0, 8, 6]], stream(8, 0), b"")));
    assert_fed(SIRAD, FRESH, 0, b"!E0000\r\n!E0000\r\n", 5, Err(61));
    assert_fed(SIRAD, (stream(3, 4), b"!E00"), 4, b"00\r\n", 0, Err(61));
    // One row is left, and then a byte too many waits.
    assert_fed(SIRAD, FRESH, 0, b"!E0000\r\n!", 3, Err(60));
    assert_fed(SIRAD, FRESH, 1, b"!E0000\r\n!", 3, Ok((&[[0, 8, 6]], stream(8, 1), b"!")));
}

#[test]
fn refusals_come_in_the_order_1_62_3_61_60() {
    let end = MAX_BYTES as u64;
    // Refused with each number that is named and all behind it.
    let line: &[u8] = b"!E0000\r\n!E";
    assert_fed(3, (stream(end, 2), b"!"), 1, line, 0, Err(1));
    assert_fed(SIRAD, (stream(end, 2), b"!"), 1, line, 0, Err(62));
    assert_fed(SIRAD, (stream(end, 1), b"!"), 1, line, 0, Err(3));
    assert_fed(SIRAD, (stream(0, 1), b"!"), 1, line, 0, Err(61));
    assert_fed(SIRAD, (stream(0, 1), b"!"), 1, line, 3, Err(60));
    assert_fed(SIRAD, (stream(0, 1), b"!"), 2, line, 3, Ok((&[[1, 8, 6]], stream(9, 2), b"!E")));
    for dialect in [3, 16, 256, 1 << 31, u32::MAX] {
        assert_fed(dialect, FRESH, 8, b"", 3, Err(1));
    }
}

#[test]
fn any_state_may_be_handed_in() {
    let end = MAX_BYTES as u64;
    let frame = b"!E0000\r\n";
    let row = [MAX_BYTES as u32 - 8, 8, 6];
    assert_fed(SIRAD, (stream(end - 8, 0), b""), 0, frame, 3, Ok((&[row], stream(end, 0), b"")));
    assert_fed(SIRAD, (stream(end - 8, 3), b"!E0"), 3, b"000\r\n", 3, Ok((&[row], stream(end, 0), b"")));
    assert_fed(SIRAD, (stream(end - 8, 8), frame), 8, b"", 3, Ok((&[row], stream(end, 0), b"")));
    assert_fed(SIRAD, (stream(end - 7, 0), b""), 0, frame, 3, Err(3));
    assert_fed(SIRAD, (stream(end - 7, 3), b"!E0"), 3, b"000\r\n", 3, Err(3));
    assert_fed(SIRAD, (stream(end - 7, 8), frame), 8, b"", 3, Err(3));
    assert_fed(SIRAD, (stream(end, 0), b""), 0, b"", 0, Ok((&[], stream(end, 0), b"")));
    assert_fed(SIRAD, (stream(end + 1, 0), b""), 0, b"", 0, Err(3));
    // Sums that come to little in 64 bits.
    for (place, waiting) in
        [(u64::MAX, 1), (u64::MAX, 0), (u64::MAX - 7, 8), (u64::MAX - 15, 8), (1 << 63, 2), (1 << 32, 0)]
    {
        assert_fed(SIRAD, (stream(place, waiting), frame), 8, frame, 9, Err(3));
    }
    for waiting in [9, 1 << 32, 1 << 63, u64::MAX] {
        assert_fed(SIRAD, (stream(0, waiting), frame), 8, b"", 3, Err(62));
        assert_fed(SIRAD, (stream(u64::MAX, waiting), frame), 8, frame, 3, Err(62));
    }
    // Waiting bytes that do not wait, and more than any frame has.
    assert_fed(SIRAD, (stream(5, 3), b" .\n"), 9, b"!", 3, Ok((&[], stream(8, 1), b"!")));
    assert_fed(SIRAD, (stream(0, 8), frame), 8, b"", 3, Ok((&[[0, 8, 6]], stream(8, 0), b"")));
    let mut long = vec![b' '; 70_000];
    long.extend(b"!E00");
    let row = [1000 + 70_000, 8, 6];
    assert_fed(SIRAD, (stream(1000, 70_004), &long), 70_004, b"00\r\n", 3, Ok((&[row], stream(71_008, 0), b"")));
    assert_fed(SIRAD, (stream(1000, 70_004), &long), 70_004, b"", 3, Ok((&[], stream(71_000, 4), b"!E00")));
}

/// "3 for a stream over 1,048,576 bytes": a new stream from place 0 goes on with the bytes that wait.
#[test]
fn a_new_stream_keeps_the_bytes_that_wait() {
    let place = MAX_BYTES as u64 - 6;
    let waits: &[u8] = b"!E0F";
    assert_fed(SIRAD, (stream(place, 4), waits), 8, b"1A\r\n", 3, Err(3));
    assert_fed(SIRAD, (stream(0, 4), waits), 8, b"1A\r\n", 3, Ok((&[[0, 8, 6]], stream(8, 0), b"")));
}

/// A SiRad frame of the greatest size and a packet of the greatest length of each dialect.
fn longest() -> [(u32, Vec<u8>, u32); 3] {
    let sirad = [&b"!RFFFF00000000"[..], &[b'Z'; 65_535], b"\r\n"].concat();
    let mut mmwave = packet(&[1, 32_768, 3, 4, 5, 6, 1, 0, 10, 32_720]);
    mmwave.resize(32_768, 9);
    let mut vital_signs = packet(&[1, 32_768, 3, 4, 5, 99, 1, 0, 2, 32_720]);
    vital_signs.resize(32_768, 9);
    [(SIRAD, sirad, 1), (MMWAVE, mmwave, 16), (VITAL_SIGNS, vital_signs, 17)]
}

#[test]
fn the_longest_frames_wait_for_their_last_byte() {
    for (dialect, frame, kind) in longest() {
        let length = frame.len();
        let (front, last) = frame.split_at(length - 1);
        let waits = stream(0, length as u64 - 1);
        assert_fed(dialect, FRESH, length - 1, front, 0, Ok((&[], waits, front)));
        assert_fed(dialect, FRESH, length - 2, front, 0, Err(60));
        let row = [0, length as u32, kind];
        assert_fed(dialect, (waits, front), length - 1, last, 3, Ok((&[row], stream(length as u64, 0), b"")));
    }
    assert_eq!(longest().map(|(_, frame, _)| frame.len()), [65_551, 32_768, 32_768]);
}

/// A carry of one byte less than the longest frame is never too small.
#[test]
fn no_more_bytes_wait_than_the_longest_frame_but_one() {
    for (dialect, frame, _) in longest() {
        for subject in subjects() {
            for seed in 0..20 {
                let mut random = Random::new(seed);
                let hostile = capture(dialect, Family::Hostile, seed, 60_000);
                let line = [&hostile[..30_000], &frame[..frame.len() - 1], &hostile[30_000..]].concat();
                let mut carry = vec![FILLER; frame.len() - 1];
                let mut table = vec![NUMBER; ROW * line.len() / 8];
                let (mut state, mut rest) = (Stream::default(), line.as_slice());
                while !rest.is_empty() {
                    let (bytes, behind) = rest.split_at(random.within(1, 40_000).min(rest.len()));
                    let fed = subject.feed(dialect, state, &mut carry, bytes, &mut table);
                    assert_eq!(fed.refusal, 0, "dialect {dialect}, seed {seed}: {state:?}");
                    (state, rest) = (fed.stream, behind);
                }
            }
        }
    }
}

// Feeders that are wrong on purpose.

type Feed = fn(u32, Stream, &mut [u8], &[u8], &mut [u32]) -> Fed;

/// A feeder with one wrong rule.
struct Wrong(Feed);

impl FeedSubject for Wrong {
    fn feed(&self, dialect: u32, stream: Stream, carry: &mut [u8], bytes: &[u8], table: &mut [u32]) -> Fed {
        (self.0)(dialect, stream, carry, bytes, table)
    }
}

fn right(dialect: u32, stream: Stream, carry: &mut [u8], bytes: &[u8], table: &mut [u32]) -> Fed {
    Reference.feed(dialect, stream, carry, bytes, table)
}

/// What the right answer is, without what it does to the buffers.
fn answer(dialect: u32, stream: Stream, carry: &[u8], bytes: &[u8], table: &[u32]) -> Fed {
    right(dialect, stream, &mut carry.to_vec(), bytes, &mut table.to_vec())
}

fn refused(refusal: u32, stream: Stream) -> Fed {
    Fed { refusal, rows: 0, stream }
}

/// The answer to a call with another state in place of this one, which a refusal returns.
fn in_place_of(before: Stream, fed: Fed) -> Fed {
    match fed.refusal {
        0 => fed,
        refusal => refused(refusal, before),
    }
}

/// The right answer with a carry that is never too small, and the bytes that it leaves there.
fn with_longer_carry(dialect: u32, stream: Stream, carry: &[u8], bytes: &[u8], table: &mut [u32]) -> (Fed, Vec<u8>) {
    let mut longer = carry.to_vec();
    longer.resize(MAX_BYTES, 0);
    (right(dialect, stream, &mut longer, bytes, table), longer)
}

/// The right answer, with its rows changed.
fn rows_with(change: fn(&mut [u32], Stream)) -> impl Fn(u32, Stream, &mut [u8], &[u8], &mut [u32]) -> Fed {
    move |dialect, stream, carry, bytes, table| {
        let fed = right(dialect, stream, carry, bytes, table);
        table.chunks_exact_mut(ROW).take(fed.rows as usize).for_each(|row| change(row, stream));
        fed
    }
}

/// The right answer, with another state where it is accepted.
fn state_with(fed: Fed, change: impl Fn(Stream) -> Stream) -> Fed {
    match fed.refusal {
        0 => Fed { stream: change(fed.stream), ..fed },
        _ => fed,
    }
}

/// Nothing waits any more.
fn drop_waiting(Stream { place, waiting }: Stream) -> Stream {
    stream(place + waiting, 0)
}

/// The right refusals 1, 62 and 3; else these bytes are read from this place on, in place of the waiting and the new ones.
fn read_instead(
    dialect: u32,
    before: Stream,
    (carry, table): (&mut [u8], &mut [u32]),
    bytes: &[u8],
    instead: impl Fn(&[u8]) -> (u64, Vec<u8>),
) -> Fed {
    let known = answer(dialect, before, carry, bytes, table);
    if [1, 62, 3].contains(&known.refusal) {
        return known;
    }
    let (place, joined) = instead(&carry[..before.waiting as usize]);
    in_place_of(before, right(dialect, stream(place, 0), carry, &joined, table))
}

/// Where the right answer is 3, what comes of a stream at place 0; the rows then stand at its places, cut to 32 bits.
fn read_on(dialect: u32, before: Stream, carry: &mut [u8], bytes: &[u8], table: &mut [u32]) -> Fed {
    let fed = right(dialect, stream(0, before.waiting), carry, bytes, table);
    if fed.refusal != 0 {
        return refused(fed.refusal, before);
    }
    let rows = table.chunks_exact_mut(ROW).take(fed.rows as usize);
    rows.for_each(|row| row[0] = row[0].wrapping_add(before.place as u32));
    Fed { stream: stream(before.place.wrapping_add(fed.stream.place), fed.stream.waiting), ..fed }
}

/// 3 by another sum: refused where it is over the limit, read where it is not; 1 and 62 as they are.
fn limit_by(
    (dialect, before): (u32, Stream),
    carry: &mut [u8],
    bytes: &[u8],
    table: &mut [u32],
    sum: fn(u64, u64, u64) -> u128,
) -> Fed {
    let known = answer(dialect, before, carry, bytes, table);
    if [1, 62].contains(&known.refusal) {
        return known;
    }
    if sum(before.place, before.waiting, bytes.len() as u64) > MAX_BYTES as u128 {
        return refused(3, before);
    }
    read_on(dialect, before, carry, bytes, table)
}

/// The closed reading of the waiting and the new bytes.
fn read_closed(dialect: u32, before: Stream, carry: &mut [u8], bytes: &[u8], table: &mut [u32]) -> Fed {
    let known = answer(dialect, before, carry, bytes, table);
    if [1, 62, 3].contains(&known.refusal) {
        return known;
    }
    let joined = [&carry[..before.waiting as usize], bytes].concat();
    let mut rows = vec![0; ROW * joined.len()];
    let reading = Reference.closed_reading(dialect, &joined, &mut rows);
    let written = ROW * reading.rows as usize;
    if written > table.len() {
        return refused(61, before);
    }
    table[..written].copy_from_slice(&rows[..written]);
    table[..written].chunks_exact_mut(ROW).for_each(|row| row[0] += before.place as u32);
    Fed { refusal: 0, rows: reading.rows, stream: stream(before.place + joined.len() as u64, 0) }
}

/// Where the right answer is 61: the rows that fit, and what is behind them waits.
fn stop_at_full_table(dialect: u32, before: Stream, carry: &mut [u8], bytes: &[u8], table: &mut [u32]) -> Fed {
    let known = right(dialect, before, carry, bytes, table);
    if known.refusal != 61 {
        return known;
    }
    let joined = [&carry[..before.waiting as usize], bytes].concat();
    let reading = Reference.open_reading(dialect, &joined, table);
    let rest = &joined[reading.next as usize..];
    if rest.len() > carry.len() {
        return refused(60, before);
    }
    table[..ROW * reading.rows as usize].chunks_exact_mut(ROW).for_each(|row| row[0] += before.place as u32);
    carry[..rest.len()].copy_from_slice(rest);
    Fed { refusal: 0, rows: reading.rows, stream: stream(before.place + reading.next, rest.len() as u64) }
}

/// A frame that ends with the last byte is not told yet: it waits, if there is room.
fn withhold_last(dialect: u32, before: Stream, carry: &mut [u8], bytes: &[u8], table: &mut [u32]) -> Fed {
    let (carry_before, table_before) = (carry.to_vec(), table.to_vec());
    let fed = right(dialect, before, carry, bytes, table);
    if fed.rows == 0 {
        return fed;
    }
    let last = ROW * (fed.rows as usize - 1);
    let (place, length) = (u64::from(table[last]), table[last + 1] as usize);
    let end = before.place + before.waiting + bytes.len() as u64;
    if place + length as u64 != end || length > carry.len() {
        return fed;
    }
    table[last..].copy_from_slice(&table_before[last..]);
    let joined = [&carry_before[..before.waiting as usize], bytes].concat();
    carry[..length].copy_from_slice(&joined[joined.len() - length..]);
    Fed { refusal: 0, rows: fed.rows - 1, stream: stream(place, length as u64) }
}

/// The right answer as if the types at these places in the waiting and the new bytes were free.
fn with_free_types(
    (dialect, before): (u32, Stream),
    carry: &mut [u8],
    bytes: &[u8],
    table: &mut [u32],
    places: fn(&[u8], usize) -> Vec<usize>,
) -> Fed {
    if dialect != MMWAVE || [62, 3].contains(&answer(dialect, before, carry, bytes, table).refusal) {
        return right(dialect, before, carry, bytes, table);
    }
    let waiting = before.waiting as usize;
    let joined = [&carry[..waiting], bytes].concat();
    let mut changed = joined.clone();
    for place in places(&joined, waiting) {
        changed[place..place + 4].copy_from_slice(&10u32.to_le_bytes());
    }
    let mut carry_after = [&changed[..waiting], &carry[waiting..]].concat();
    let fed = right(dialect, before, &mut carry_after, &changed[waiting..], table);
    if fed.refusal == 0 {
        let rest = fed.stream.waiting as usize;
        carry[..rest].copy_from_slice(&joined[joined.len() - rest..]);
    }
    fed
}

/// The types that come again, of every packet of which one does.
fn all_repeated(bytes: &[u8], _: usize) -> Vec<usize> {
    let bad = (0..bytes.len()).filter(|&place| Reference.judge(MMWAVE, bytes, place).reason == 25);
    bad.flat_map(|start| repeated(&bytes[start..], is_excluded).into_iter().map(move |place| start + place)).collect()
}

/// The types that come again behind the waiting bytes and not among the others there.
fn repeated_across(bytes: &[u8], waiting: usize) -> Vec<usize> {
    let new: Vec<(usize, u32)> = tags(bytes).into_iter().filter(|&(place, _)| place >= waiting).collect();
    let types: Vec<u32> = new.iter().map(|&(_, tag)| tag).collect();
    let across = new.iter().enumerate().filter(|&(index, &(_, tag))| !is_excluded(tag, &types[..index]));
    let across: Vec<usize> = across.map(|(_, &(place, _))| place).collect();
    repeated(bytes, is_excluded).into_iter().filter(|place| across.contains(place)).collect()
}

/// Wrong in the joined rows, the state, or what a refusal leaves: found without the reader's feeder.
const WRONG_STREAMS: &[(&str, Feed)] = &[
    ("places count from the call's first byte", |d, s, c, b, t| {
        rows_with(|row, before| row[0] -= before.place as u32)(d, s, c, b, t)
    }),
    ("places count from the first new byte", |d, s, c, b, t| {
        let change = |row: &mut [u32], before: Stream| {
            row[0] = row[0].wrapping_sub((before.place + before.waiting) as u32);
        };
        rows_with(change)(d, s, c, b, t)
    }),
    ("places count from behind the waiting bytes", |d, s, c, b, t| {
        rows_with(|row, before| row[0] += before.waiting as u32)(d, s, c, b, t)
    }),
    ("places are counted in 16 bits", |d, s, c, b, t| rows_with(|row, _| row[0] &= 0xFFFF)(d, s, c, b, t)),
    ("length and kind change places", |d, s, c, b, t| rows_with(|row, _| row.swap(1, 2))(d, s, c, b, t)),
    ("a row of vital signs has kind 16", |d, s, c, b, t| rows_with(|row, _| row[2] = row[2].min(16))(d, s, c, b, t)),
    ("the waiting bytes are not read", |d, s, c, b, t| {
        read_instead(d, s, (c, t), b, |_| (s.place + s.waiting, b.to_vec()))
    }),
    ("the new bytes go before the waiting ones", |d, s, c, b, t| {
        read_instead(d, s, (c, t), b, |waiting| (s.place, [b, waiting].concat()))
    }),
    ("the first waiting byte is given up", |d, s, c, b, t| {
        read_instead(d, s, (c, t), b, |waiting| {
            let given_up = waiting.len().min(1);
            (s.place + given_up as u64, [&waiting[given_up..], b].concat())
        })
    }),
    ("the last waiting byte is not read", |d, s, c, b, t| {
        read_instead(d, s, (c, t), b, |waiting| (s.place, [&waiting[..waiting.len().saturating_sub(1)], b].concat()))
    }),
    ("the first new byte is lost", |d, s, c, b, t| {
        read_instead(d, s, (c, t), b, |waiting| (s.place, [waiting, &b[b.len().min(1)..]].concat()))
    }),
    ("the whole carry is read", |d, s, c, b, t| match answer(d, s, c, b, t).refusal {
        0 => in_place_of(s, right(d, stream(s.place, c.len() as u64), c, b, t)),
        refusal => refused(refusal, s),
    }),
    ("the waiting bytes count from the stream's start", |d, s, c, b, t| match s.place {
        0 => right(d, stream(0, 0), c, b, t),
        _ => right(d, s, c, b, t),
    }),
    ("the closed reading is read", read_closed),
    ("a full table stops the reading", stop_at_full_table),
    ("a frame at the end waits for a byte behind it", withhold_last),
    ("no row is written", |d, s, c, b, t| right(d, s, c, b, &mut t.to_vec())),
    ("the last row is not written", |d, s, c, b, t| {
        let mut rows = t.to_vec();
        let fed = right(d, s, c, b, &mut rows);
        let written = ROW * (fed.rows as usize).saturating_sub(1);
        t[..written].copy_from_slice(&rows[..written]);
        fed
    }),
    ("a row too few is counted", |d, s, c, b, t| {
        let fed = right(d, s, c, b, t);
        Fed { rows: fed.rows.saturating_sub(1), ..fed }
    }),
    ("the last row comes first", |d, s, c, b, t| {
        let fed = right(d, s, c, b, t);
        t[..ROW * fed.rows as usize].rotate_left(ROW * (fed.rows as usize).saturating_sub(1));
        fed
    }),
    ("a frame that began in the waiting bytes is left out", |d, s, c, b, t| {
        let fed = right(d, s, c, b, t);
        if fed.rows == 0 || u64::from(t[0]) >= s.place + s.waiting {
            return fed;
        }
        t[..ROW * fed.rows as usize].rotate_left(ROW);
        Fed { rows: fed.rows - 1, ..fed }
    }),
    ("skipped bytes do not count in the places", |d, s, c, b, t| {
        let fed = right(d, s, c, b, t);
        let rows = t.chunks_exact(ROW).take(fed.rows as usize);
        let lengths: u64 = rows.map(|row| u64::from(row[1])).sum();
        state_with(fed, |after| stream(s.place + lengths, after.waiting))
    }),
    ("the place is behind the waiting bytes", |d, s, c, b, t| {
        state_with(right(d, s, c, b, t), |after| stream(after.place + after.waiting, after.waiting))
    }),
    ("the last byte that waits is lost", |d, s, c, b, t| {
        state_with(right(d, s, c, b, t), |after| stream(after.place, after.waiting.saturating_sub(1)))
    }),
    ("an empty call gives up what waits", |d, s, c, b, t| {
        let fed = right(d, s, c, b, t);
        state_with(fed, |after| if b.is_empty() { drop_waiting(after) } else { after })
    }),
    ("an empty call starts a stream", |d, s, c, b, t| {
        let fed = right(d, s, c, b, t);
        state_with(fed, |after| if b.is_empty() { stream(0, 0) } else { after })
    }),
    ("a call with a row drops what waits behind it", |d, s, c, b, t| {
        let fed = right(d, s, c, b, t);
        state_with(fed, |after| if fed.rows > 0 { drop_waiting(after) } else { after })
    }),
    ("what waited in two calls is given up", |d, s, c, b, t| {
        let fed = right(d, s, c, b, t);
        let again = fed.stream.place == s.place && s.waiting > 0 && !b.is_empty();
        state_with(fed, |after| if again { drop_waiting(after) } else { after })
    }),
    ("waiting bytes are counted in 16 bits", |d, s, c, b, t| {
        state_with(right(d, s, c, b, t), |after| stream(after.place, after.waiting & 0xFFFF))
    }),
    ("the carry is not written", |d, s, c, b, t| right(d, s, &mut c.to_vec(), b, t)),
    ("the waiting bytes lie at the carry's end", |d, s, c, b, t| {
        let mut after = c.to_vec();
        let fed = right(d, s, &mut after, b, t);
        if fed.refusal == 0 {
            let waiting = fed.stream.waiting as usize;
            let start = c.len() - waiting;
            c[start..].copy_from_slice(&after[..waiting]);
        }
        fed
    }),
    ("the carry keeps the new bytes only", |d, s, c, b, t| {
        let fed = right(d, s, c, b, t);
        state_with(fed, |after| {
            let kept = after.waiting.min(b.len() as u64);
            stream(after.place + after.waiting - kept, kept)
        })
    }),
    ("dialect 2 is read as dialect 1", |d, s, c, b, t| right(if d == 2 { 1 } else { d }, s, c, b, t)),
    ("a refusal returns a new stream", |d, s, c, b, t| match right(d, s, c, b, t) {
        fed if fed.refusal == 0 => fed,
        fed => refused(fed.refusal, stream(0, 0)),
    }),
    ("3 starts a new stream", |d, s, c, b, t| match right(d, s, c, b, t) {
        fed if fed.refusal == 3 => refused(3, stream(0, s.waiting)),
        fed => fed,
    }),
    ("60 returns the place where the reading stopped", |d, s, c, b, t| match right(d, s, c, b, t) {
        fed if fed.refusal == 60 => {
            let (accepted, _) = with_longer_carry(d, s, c, b, &mut t.to_vec());
            refused(60, stream(accepted.stream.place, s.waiting))
        }
        fed => fed,
    }),
    ("62 returns as many waiting bytes as the carry holds", |d, s, c, b, t| match right(d, s, c, b, t) {
        fed if fed.refusal == 62 => refused(62, stream(s.place, c.len() as u64)),
        fed => fed,
    }),
    ("61 tells the rows that there are", |d, s, c, b, t| match right(d, s, c, b, t) {
        fed if fed.refusal == 61 => Fed { rows: (t.len() / ROW + 1) as u64, ..fed },
        fed => fed,
    }),
    ("61 writes the rows that fit", |d, s, c, b, t| {
        let fed = right(d, s, c, b, t);
        if fed.refusal == 61 {
            stop_at_full_table(d, s, &mut c.to_vec(), b, t);
        }
        fed
    }),
    ("60 writes the rows", |d, s, c, b, t| {
        let fed = right(d, s, c, b, t);
        if fed.refusal == 60 {
            with_longer_carry(d, s, c, b, t);
        }
        fed
    }),
    ("60 fills the carry", |d, s, c, b, t| {
        let fed = right(d, s, c, b, t);
        if fed.refusal == 60 {
            let (_, longer) = with_longer_carry(d, s, c, b, &mut t.to_vec());
            c.copy_from_slice(&longer[..c.len()]);
        }
        fed
    }),
    ("a refusal clears the carry", |d, s, c, b, t| {
        let fed = right(d, s, c, b, t);
        if fed.refusal != 0 {
            c.fill(0);
        }
        fed
    }),
    ("a refusal clears the table", |d, s, c, b, t| {
        let fed = right(d, s, c, b, t);
        if fed.refusal != 0 {
            t.fill(0);
        }
        fed
    }),
    ("60 is not said, and what does not fit is lost", |d, s, c, b, t| match right(d, s, c, b, t) {
        fed if fed.refusal == 60 => {
            let (fed, longer) = with_longer_carry(d, s, c, b, t);
            c.copy_from_slice(&longer[..c.len()]);
            state_with(fed, |after| stream(after.place, c.len() as u64))
        }
        fed => fed,
    }),
    ("a type may come again", |d, s, c, b, t| with_free_types((d, s), c, b, t, all_repeated)),
    ("types in the waiting bytes are forgotten", |d, s, c, b, t| with_free_types((d, s), c, b, t, repeated_across)),
];

/// Wrong in what is refused, in its order, or in what stays behind rows and waiting bytes: found by comparing the calls.
const WRONG_CALLS: &[(&str, Feed)] = &[
    ("carry bytes behind the waiting ones are cleared", |d, s, c, b, t| {
        let fed = right(d, s, c, b, t);
        if fed.refusal == 0 {
            c[fed.stream.waiting as usize..].fill(0);
        }
        fed
    }),
    ("bytes that waited before are cleared", |d, s, c, b, t| {
        let fed = right(d, s, c, b, t);
        if fed.refusal == 0 && fed.stream.waiting < s.waiting {
            c[fed.stream.waiting as usize..s.waiting as usize].fill(0);
        }
        fed
    }),
    ("the carry gets the new bytes too", |d, s, c, b, t| {
        let fed = right(d, s, c, b, t);
        let waiting = fed.stream.waiting as usize;
        if fed.refusal == 0 && waiting == 0 && b.len() <= c.len() {
            c[..b.len()].copy_from_slice(b);
        }
        fed
    }),
    ("table numbers behind the rows are cleared", |d, s, c, b, t| {
        let fed = right(d, s, c, b, t);
        if fed.refusal == 0 {
            t[ROW * fed.rows as usize..].fill(0);
        }
        fed
    }),
    ("a 0 stands behind the last row", |d, s, c, b, t| {
        let fed = right(d, s, c, b, t);
        if let (0, Some(number)) = (fed.refusal, t.get_mut(ROW * fed.rows as usize)) {
            *number = 0;
        }
        fed
    }),
    ("60 goes before 61", |d, s, c, b, t| match right(d, s, c, b, t) {
        fed if fed.refusal == 61 && answer(d, s, c, b, &vec![0; ROW * MAX_BYTES / 8]).refusal == 60 => refused(60, s),
        fed => fed,
    }),
    ("61 goes before 3", |d, s, c, b, t| match right(d, s, c, b, t) {
        fed if fed.refusal == 3 && answer(d, stream(0, s.waiting), c, b, t).refusal == 61 => refused(61, s),
        fed => fed,
    }),
    ("3 goes before 62", |d, s, c, b, t| match right(d, s, c, b, t) {
        fed if fed.refusal == 62 && s.place > MAX_BYTES as u64 => refused(3, s),
        fed => fed,
    }),
    ("62 goes before 1", |d, s, c, b, t| match right(d, s, c, b, t) {
        fed if fed.refusal == 1 && s.waiting > c.len() as u64 => refused(62, s),
        fed => fed,
    }),
    ("3 goes before 1", |d, s, c, b, t| match right(d, s, c, b, t) {
        fed if fed.refusal == 1 && s.place > MAX_BYTES as u64 => refused(3, s),
        fed => fed,
    }),
    ("60 is told as 61", |d, s, c, b, t| match right(d, s, c, b, t) {
        fed if fed.refusal == 60 => refused(61, s),
        fed => fed,
    }),
    ("62 is told as 60", |d, s, c, b, t| match right(d, s, c, b, t) {
        fed if fed.refusal == 62 => refused(60, s),
        fed => fed,
    }),
    ("3 counts the new bytes only", |d, s, c, b, t| limit_by((d, s), c, b, t, |_, _, count| count.into())),
    ("3 does not count the place", |d, s, c, b, t| {
        limit_by((d, s), c, b, t, |_, waiting, count| u128::from(waiting) + u128::from(count))
    }),
    ("3 does not count the waiting bytes", |d, s, c, b, t| {
        limit_by((d, s), c, b, t, |place, _, count| u128::from(place) + u128::from(count))
    }),
    ("3 does not count the new bytes", |d, s, c, b, t| {
        limit_by((d, s), c, b, t, |place, waiting, _| u128::from(place) + u128::from(waiting))
    }),
    ("3 counts the waiting bytes twice", |d, s, c, b, t| {
        limit_by((d, s), c, b, t, |place, waiting, count| {
            u128::from(place) + 2 * u128::from(waiting) + u128::from(count)
        })
    }),
    ("a stream of a mebibyte is refused", |d, s, c, b, t| {
        limit_by((d, s), c, b, t, |place, waiting, count| {
            u128::from(place) + u128::from(waiting) + u128::from(count) + 1
        })
    }),
    ("a stream of a mebibyte and a byte is read", |d, s, c, b, t| {
        limit_by((d, s), c, b, t, |place, waiting, count| {
            (u128::from(place) + u128::from(waiting) + u128::from(count)).saturating_sub(1)
        })
    }),
    ("the sum wraps around", |d, s, c, b, t| {
        limit_by((d, s), c, b, t, |place, waiting, count| place.wrapping_add(waiting).wrapping_add(count).into())
    }),
    ("place and waiting bytes wrap around", |d, s, c, b, t| {
        limit_by((d, s), c, b, t, |place, waiting, count| u128::from(place.wrapping_add(waiting)) + u128::from(count))
    }),
    ("a place has 32 bits", |d, s, c, b, t| {
        limit_by((d, s), c, b, t, |place, waiting, count| {
            u128::from(place as u32) + u128::from(waiting) + u128::from(count)
        })
    }),
    ("the waiting bytes have 32 bits", |d, s, c, b, t| match right(d, s, c, b, t) {
        fed if fed.refusal == 62 => in_place_of(s, right(d, stream(s.place, s.waiting & 0xFFFF_FFFF), c, b, t)),
        fed => fed,
    }),
    ("62 at as many bytes as the carry has", |d, s, c, b, t| match right(d, s, c, b, t) {
        fed if fed.refusal != 1 && s.waiting == c.len() as u64 => refused(62, s),
        fed => fed,
    }),
    ("60 at as many bytes as the carry has", |d, s, c, b, t| match answer(d, s, c, b, t) {
        fed if fed.refusal == 0 && fed.stream.waiting == c.len() as u64 => refused(60, s),
        _ => right(d, s, c, b, t),
    }),
    ("60 if waiting and new bytes exceed the carry", |d, s, c, b, t| match answer(d, s, c, b, t) {
        fed if fed.refusal == 0 && s.waiting as usize + b.len() > c.len() => refused(60, s),
        _ => right(d, s, c, b, t),
    }),
    ("61 at as many rows as the table has", |d, s, c, b, t| match answer(d, s, c, b, t) {
        fed if fed.refusal == 0 && fed.rows > 0 && fed.rows as usize == t.len() / ROW => refused(61, s),
        _ => right(d, s, c, b, t),
    }),
    ("61 if there might be more frames than rows", |d, s, c, b, t| match answer(d, s, c, b, t) {
        fed if fed.refusal == 0 && (s.waiting as usize + b.len()) / 8 > t.len() / ROW => refused(61, s),
        _ => right(d, s, c, b, t),
    }),
    ("part of a row is enough", |d, s, c, b, t| {
        let mut longer = t.to_vec();
        longer.resize(t.len().next_multiple_of(ROW), 0);
        let fed = right(d, s, c, b, &mut longer);
        t.copy_from_slice(&longer[..t.len()]);
        fed
    }),
    ("a table without a row is refused", |d, s, c, b, t| match answer(d, s, c, b, t) {
        fed if fed.refusal == 0 && t.len() < ROW => refused(61, s),
        _ => right(d, s, c, b, t),
    }),
    ("a carry without a byte is refused", |d, s, c, b, t| match answer(d, s, c, b, t) {
        fed if fed.refusal == 0 && c.is_empty() => refused(60, s),
        _ => right(d, s, c, b, t),
    }),
    ("a state whose bytes do not wait is refused", |d, s, c, b, t| match answer(d, s, c, b, t) {
        fed if fed.refusal == 0 && Reference.judge(d, &c[..s.waiting as usize], 0).state != WAITING => refused(62, s),
        _ => right(d, s, c, b, t),
    }),
    ("a new stream may not have waiting bytes", |d, s, c, b, t| match answer(d, s, c, b, t) {
        fed if fed.refusal == 0 && s.place == 0 && s.waiting > 0 => refused(62, s),
        _ => right(d, s, c, b, t),
    }),
    ("more waiting bytes than a frame has are refused", |d, s, c, b, t| match answer(d, s, c, b, t) {
        fed if fed.refusal == 0 && s.waiting > 65_551 => refused(62, s),
        _ => right(d, s, c, b, t),
    }),
    ("more waiting bytes than a frame has are not read", |d, s, c, b, t| {
        read_instead(d, s, (c, t), b, |waiting| (s.place, [&waiting[..waiting.len().min(65_551)], b].concat()))
    }),
    ("an empty call reads nothing", |d, s, c, b, t| match answer(d, s, c, b, t) {
        fed if fed.refusal == 0 && b.is_empty() => Fed { refusal: 0, rows: 0, stream: s },
        _ => right(d, s, c, b, t),
    }),
    ("dialect 3 is read", |d, s, c, b, t| right(if d == 3 { 2 } else { d }, s, c, b, t)),
    ("a dialect is looked at in 8 bits", |d, s, c, b, t| right(d & 0xFF, s, c, b, t)),
];

#[test]
fn wrong_feeders_are_found() {
    for (name, wrong) in WRONG_STREAMS.iter().chain(WRONG_CALLS) {
        let found = RUNS.iter().any(|(_, run)| run(&Wrong(*wrong)).is_err());
        assert!(found, "not found: {name}");
    }
}

#[test]
fn wrong_streams_are_found_without_the_readers_feeder() {
    for (name, wrong) in WRONG_STREAMS {
        let found = RUNS_AS_ONE.iter().any(|(_, run)| run(&Wrong(*wrong)).is_err());
        assert!(found, "not found: {name}");
    }
}

/// What a fuzzer calls, on its own.
#[test]
fn wrong_feeders_are_found_in_one_capture() {
    let check = |subject: &dyn FeedSubject| {
        DIALECTS.iter().try_for_each(|&dialect| {
            let bytes = capture(dialect, Family::Noisy, 3, 500);
            check_feeding(subject, dialect, &bytes, &[3, 40, 41, 130, 131, 480, 499], 5, 4)
        })
    };
    assert_eq!(check(&Reference), Ok(()));
    let missed = WRONG_STREAMS.iter().chain(WRONG_CALLS).filter(|(_, wrong)| check(&Wrong(*wrong)).is_ok());
    let missed: Vec<&str> = missed.map(|(name, _)| *name).collect();
    // These need long lines, dialects that there are not, or packets and sizes that this capture does not have.
    let expected = [
        "waiting bytes are counted in 16 bits",
        "a type may come again",
        "types in the waiting bytes are forgotten",
        "62 goes before 1",
        "3 goes before 1",
        "the waiting bytes have 32 bits",
        "60 at as many bytes as the carry has",
        "a table without a row is refused",
        "a carry without a byte is refused",
        "more waiting bytes than a frame has are refused",
        "more waiting bytes than a frame has are not read",
        "dialect 3 is read",
        "a dialect is looked at in 8 bits",
    ];
    assert_eq!(missed, expected);
}

#[test]
fn a_difference_tells_its_cut_and_bytes() {
    let (_, wrong) = WRONG_STREAMS[0];
    let difference = compare_streams(&Wrong(wrong), Asked::Calls, first_seed(), CALLS).unwrap_err();
    let told = difference.to_string();
    assert!(told.contains("seed ") && told.contains("cargo run --bin capture"), "{told}");
    let difference = compare_cuttings(&Wrong(wrong), Asked::AsOne, first_seed()).unwrap_err();
    assert!(difference.to_string().starts_with("cut at ["), "{difference}");
}
