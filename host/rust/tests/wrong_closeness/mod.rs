//! Readers that are wrong on whether anyone is close, each in one thing. They are put together from parts that are right:
//! which packets there are, which points these have, which points are close, what is told of the first, and the refusals.

use radar_reference::abi::fields::Record;
use radar_reference::abi::proximity::{Closeness, ProximitySubject};
use radar_reference::abi::{Judgement, Reference, Subject, BAD, WAITING, WHOLE};
use radar_reference::mmwave::{self, is_excluded, is_known};
use radar_reference::packet_rules::Rules;
use radar_reference::refusal::{MAX_BYTES, MAX_DISTANCE};

use crate::editions::{is_wrong, Renaming, OTHER_EDITIONS};

/// What is asked.
#[derive(Clone, Copy)]
pub struct Asked<'a> {
    dialect: u32,
    edition: u32,
    distance: u32,
    bytes: &'a [u8],
}

/// A packet's place and length.
type Row = (usize, usize);

/// A point, where it stands, and its bits: X, Y, Z and Doppler.
#[derive(Clone, Copy)]
pub struct Seen {
    place: usize,
    index: usize,
    /// Where its record starts, counted from the packet.
    record: usize,
    /// The packet's number, and the point's among all.
    row: usize,
    number: usize,
    edition: u32,
    bits: [u32; 4],
}

impl Seen {
    /// A coordinate in millimetres, or its refusal.
    fn coordinate(&self, axis: usize) -> Result<i32, u32> {
        let answer = Reference.millimetres(self.edition, self.bits[axis]);
        if answer.refusal == 0 {
            Ok(answer.value)
        } else {
            Err(answer.refusal)
        }
    }

    /// X, Y and Z, each this where it is refused.
    fn coordinates_or(&self, refused: i32) -> [i32; 3] {
        [0, 1, 2].map(|axis| self.coordinate(axis).unwrap_or(refused))
    }

    /// X, Y and Z in metres, as they are.
    fn metres(&self) -> [f64; 3] {
        [0, 1, 2].map(|axis| f64::from(f32::from_bits(self.bits[axis])))
    }

    fn is_refused(&self) -> bool {
        (0..3).any(|axis| self.coordinate(axis).is_err())
    }

    /// Readable, and this of its coordinates.
    fn holds(&self, test: impl Fn([i32; 3]) -> bool) -> bool {
        !self.is_refused() && test(self.coordinates_or(0))
    }
}

/// A reader with one part that is its own.
#[derive(Clone, Copy)]
pub enum Wrong {
    /// Another list of packets.
    Rows(fn(&[u8]) -> Vec<Row>),
    /// Another list of a packet's points.
    Points(fn(Asked, usize, Row) -> Vec<Seen>),
    /// Packets whose types may come again, and their points.
    AnyTypes(fn(Asked, usize, Row) -> Vec<Seen>),
    /// Another list of all points.
    All(fn(Asked, Vec<Seen>) -> Vec<Seen>),
    /// Another test of a point.
    Test(fn(&Seen, u32) -> bool),
    /// Something else is told of the first point that is close.
    Told(fn(Asked, &Seen) -> Closeness),
    /// Another refusal, 0 for none.
    Refusal(fn(Asked) -> u32),
    /// The right answer is changed.
    Answer(fn(Asked, Closeness) -> Closeness),
    /// Another edition is taken for the one named.
    Edition(Renaming),
}

impl ProximitySubject for Wrong {
    fn anyone_close(&self, dialect: u32, edition: u32, distance: u32, bytes: &[u8]) -> Closeness {
        let asked = Asked { dialect, edition, distance, bytes };
        let right = |asked: Asked| answer(asked, rows, points_of, |_, all| all, is_close, told);
        match *self {
            Wrong::Rows(rows) => answer(asked, rows, points_of, |_, all| all, is_close, told),
            Wrong::Points(points) => answer(asked, rows, points, |_, all| all, is_close, told),
            Wrong::AnyTypes(points) => answer(asked, of_any_types, points, |_, all| all, is_close, told),
            Wrong::All(change) => answer(asked, rows, points_of, change, is_close, told),
            Wrong::Test(test) => answer(asked, rows, points_of, |_, all| all, test, told),
            Wrong::Told(told) => answer(asked, rows, points_of, |_, all| all, is_close, told),
            Wrong::Refusal(refusal) => match refusal(asked) {
                0 => right(Asked { edition: if is_wrong(edition) { 1 } else { edition }, ..asked.admitted() }),
                refusal => refused(refusal),
            },
            Wrong::Answer(change) => change(asked, right(asked)),
            Wrong::Edition(other) => right(Asked { edition: other(edition), ..asked }),
        }
    }
}

impl<'a> Asked<'a> {
    /// The same in dialect 1, within the limits.
    fn admitted(self) -> Asked<'a> {
        let bytes = &self.bytes[..self.bytes.len().min(MAX_BYTES)];
        Asked { dialect: 1, distance: self.distance.min(MAX_DISTANCE), bytes, ..self }
    }
}

const NOBODY: Closeness = Closeness { refusal: 0, close: 0, place: 0, index: 0 };

fn refused(refusal: u32) -> Closeness {
    Closeness { refusal, ..NOBODY }
}

fn answer(
    asked: Asked,
    rows: fn(&[u8]) -> Vec<Row>,
    points: fn(Asked, usize, Row) -> Vec<Seen>,
    change: fn(Asked, Vec<Seen>) -> Vec<Seen>,
    test: fn(&Seen, u32) -> bool,
    tell: fn(Asked, &Seen) -> Closeness,
) -> Closeness {
    match in_order(asked, &[1, 3, 32, 33]) {
        0 => {
            let points = rows(asked.bytes).into_iter().enumerate().flat_map(|(number, row)| points(asked, number, row));
            let mut all: Vec<Seen> = points.collect();
            all.iter_mut().enumerate().for_each(|(number, seen)| seen.number = number);
            let all = change(asked, all);
            all.iter().find(|seen| test(seen, asked.distance)).map_or(NOBODY, |seen| tell(asked, seen))
        }
        refusal => refused(refusal),
    }
}

// The parts, each right.

/// The parts in place of which the wrong readers have others.
pub const RIGHT_PARTS: &[(&str, Wrong)] = &[
    ("rows", Wrong::Rows(rows)),
    ("rows by the judgement", Wrong::Rows(|bytes| walk(bytes, judge, |_| 1))),
    ("rows by the rule on types", Wrong::Rows(|bytes| with_types(bytes, is_excluded))),
    ("points", Wrong::Points(points_of)),
    ("all", Wrong::All(|_, all| all)),
    ("test", Wrong::Test(is_close)),
    ("told", Wrong::Told(told)),
    ("refusal", Wrong::Refusal(|asked| in_order(asked, &[1, 3, 32, 33]))),
    ("answer", Wrong::Answer(|_, right| right)),
    ("edition", Wrong::Edition(|edition| edition)),
];

/// The first of these refusals that applies, or 0.
fn in_order(asked: Asked, order: &[u32]) -> u32 {
    let applies = |refusal: u32| match refusal {
        1 => asked.dialect != 1,
        3 => asked.bytes.len() > MAX_BYTES,
        32 => is_wrong(asked.edition),
        _ => asked.distance > MAX_DISTANCE,
    };
    order.iter().copied().find(|&refusal| applies(refusal)).unwrap_or(0)
}

fn rows(bytes: &[u8]) -> Vec<Row> {
    read(bytes, true)
}

fn read(bytes: &[u8], closed: bool) -> Vec<Row> {
    let mut table = vec![0; 3 * (bytes.len() / 64)];
    let reading = if closed {
        Reference.closed_reading(1, bytes, &mut table)
    } else {
        Reference.open_reading(1, bytes, &mut table)
    };
    table.chunks_exact(3).take(reading.rows as usize).map(|row| (row[0] as usize, row[1] as usize)).collect()
}

/// The reading by another judgement, or with another step at a place that is not whole; 0 ends it.
fn walk(bytes: &[u8], judge: impl Fn(&[u8], usize) -> Judgement, step: fn((Judgement, &[u8])) -> usize) -> Vec<Row> {
    let (mut rows, mut place) = (Vec::new(), 0);
    while place < bytes.len() {
        let judgement = judge(bytes, place);
        if judgement.state == WHOLE {
            rows.push((place, judgement.length as usize));
            place += judgement.length as usize;
        } else {
            match step((judgement, &bytes[place..])) {
                0 => break,
                step => place += step,
            }
        }
    }
    rows
}

/// The reading with another rule on which types a type may not stand behind.
fn with_types(bytes: &[u8], is_excluded: fn(u32, &[u32]) -> bool) -> Vec<Row> {
    let rules = Rules { is_excluded, ..mmwave::RULES };
    walk(bytes, |bytes, place| Ok(rules.judge(&bytes[place..])).into(), |_| 1)
}

fn of_any_types(bytes: &[u8]) -> Vec<Row> {
    with_types(bytes, |_, _| false)
}

/// The total length that a packet's front claims, 1 if it says none.
fn claimed(front: &[u8]) -> usize {
    front.get(12..16).map_or(1, |total| (u32::from_le_bytes(total.try_into().unwrap()) as usize).max(1))
}

fn points_of(asked: Asked, row: usize, packet: Row) -> Vec<Seen> {
    points_from(asked, row, packet, |records| records.iter().copied().find(|record| record.tag == 1))
}

/// The points of a record that is picked by another rule.
fn points_from(asked: Asked, row: usize, packet: Row, pick: fn(&[Record]) -> Option<Record>) -> Vec<Seen> {
    let records = records(&asked.bytes[packet.0..packet.0 + packet.1]);
    pick(&records).map_or_else(Vec::new, |record| points_in(asked, row, packet.0, record))
}

/// The records of a packet of either packet dialect, also one of which a type comes again.
fn records(packet: &[u8]) -> Vec<Record> {
    let word = |at: usize| u32::from_le_bytes(packet[at..at + 4].try_into().unwrap());
    let mut start = 40;
    let next = |_| {
        let record = Record { refusal: 0, tag: word(start), start: start as u64 + 8, length: word(start + 4).into() };
        start += 8 + record.length as usize;
        record
    };
    (0..word(32)).map(next).collect()
}

fn points_in(asked: Asked, row: usize, place: usize, record: Record) -> Vec<Seen> {
    let start = record.start as usize;
    (0..record.length as usize / 16).map(|index| seen_at(asked, row, place, start, index, start + 16 * index)).collect()
}

/// The point whose four numbers start at `from`, counted from the packet.
fn seen_at(asked: Asked, row: usize, place: usize, start: usize, index: usize, from: usize) -> Seen {
    let word = |at: usize| {
        let bytes = asked.bytes.get(place + at..place + at + 4);
        bytes.map_or(u32::MAX, |bytes| u32::from_le_bytes(bytes.try_into().unwrap()))
    };
    let bits = [0, 4, 8, 12].map(|offset| word(from + offset));
    Seen { place, index, record: start - 8, row, number: 0, edition: asked.edition, bits }
}

fn is_close(seen: &Seen, distance: u32) -> bool {
    seen.holds(|coordinates| coordinates.iter().all(|coordinate| coordinate.unsigned_abs() <= distance))
}

fn told(_: Asked, seen: &Seen) -> Closeness {
    at(seen.place, seen.index)
}

fn at(place: usize, index: usize) -> Closeness {
    Closeness { refusal: 0, close: 1, place: place as u64, index: index as u64 }
}

// The wrong ones.

/// All of them, with those that take another edition for the one named.
pub fn wrong_readers() -> Vec<(&'static str, Wrong)> {
    let others = OTHER_EDITIONS.iter().map(|&(what, other)| (what, Wrong::Edition(other)));
    [WRONG_TESTS, WRONG_ROWS, WRONG_TYPES, WRONG_POINTS, WRONG_ORDERS, WRONG_TOLD, WRONG_REFUSALS, WRONG_ANSWERS]
        .concat()
        .into_iter()
        .chain(others)
        .collect()
}

const WRONG_TESTS: &[(&str, Wrong)] = &[
    ("one coordinate is enough", Wrong::Test(|seen, d| seen.holds(|xyz| xyz.iter().any(|c| c.unsigned_abs() <= d)))),
    (
        "two coordinates are enough",
        Wrong::Test(|seen, d| seen.holds(|xyz| xyz.iter().filter(|c| c.unsigned_abs() <= d).count() >= 2)),
    ),
    ("X is not tested", Wrong::Test(|seen, d| seen.holds(|[_, y, z]| y.unsigned_abs() <= d && z.unsigned_abs() <= d))),
    ("Y is not tested", Wrong::Test(|seen, d| seen.holds(|[x, _, z]| x.unsigned_abs() <= d && z.unsigned_abs() <= d))),
    ("Z is not tested", Wrong::Test(|seen, d| seen.holds(|[x, y, _]| x.unsigned_abs() <= d && y.unsigned_abs() <= d))),
    ("less than the distance", Wrong::Test(|seen, d| seen.holds(|xyz| xyz.iter().all(|c| c.unsigned_abs() < d)))),
    ("a millimetre more", Wrong::Test(|seen, d| seen.holds(|xyz| xyz.iter().all(|c| c.unsigned_abs() <= d + 1)))),
    ("a coordinate has a sign", Wrong::Test(|seen, d| seen.holds(|xyz| xyz.iter().all(|&c| c <= d as i32)))),
    ("below zero is not close", Wrong::Test(|seen, d| seen.holds(|xyz| xyz.iter().all(|&c| c >= 0 && c <= d as i32)))),
    (
        "below zero is less than the distance",
        Wrong::Test(|seen, d| seen.holds(|xyz| xyz.iter().all(|&c| c <= d as i32 && -c < d.max(1) as i32))),
    ),
    (
        "Z has a sign",
        Wrong::Test(|seen, d| seen.holds(|[x, y, z]| x.unsigned_abs() <= d && y.unsigned_abs() <= d && z <= d as i32)),
    ),
    (
        "as the crow flies",
        Wrong::Test(|seen, d| {
            seen.holds(|xyz| xyz.iter().map(|&c| i64::from(c).pow(2)).sum::<i64>() <= i64::from(d).pow(2))
        }),
    ),
    (
        "the sum of magnitudes",
        Wrong::Test(|seen, d| seen.holds(|xyz| xyz.iter().map(|c| c.unsigned_abs()).sum::<u32>() <= d)),
    ),
    ("the sum has a sign", Wrong::Test(|seen, d| seen.holds(|xyz| xyz.iter().sum::<i32>().unsigned_abs() <= d))),
    (
        "Doppler is a coordinate too",
        Wrong::Test(|seen, d| is_close(seen, d) && seen.coordinate(3).is_ok_and(|c| c.unsigned_abs() <= d)),
    ),
    ("Doppler is refused too", Wrong::Test(|seen, d| is_close(seen, d) && seen.coordinate(3).is_ok())),
    ("a refused coordinate is 0", Wrong::Test(|seen, d| seen.coordinates_or(0).iter().all(|c| c.unsigned_abs() <= d))),
    (
        "a refused coordinate is at the limit",
        Wrong::Test(|seen, d| seen.coordinates_or(1_000_000).iter().all(|c| c.unsigned_abs() <= d)),
    ),
    ("a refused point is close", Wrong::Test(|seen, d| seen.is_refused() || is_close(seen, d))),
    (
        "a refused X is 0",
        Wrong::Test(|seen, d| {
            let [x, y, z] = seen.coordinates_or(0).map(|c| c.unsigned_abs() <= d);
            x && y && z && seen.coordinate(1).is_ok() && seen.coordinate(2).is_ok()
        }),
    ),
    (
        "a refused Z is 0",
        Wrong::Test(|seen, d| {
            let [x, y, z] = seen.coordinates_or(0).map(|c| c.unsigned_abs() <= d);
            x && y && z && seen.coordinate(0).is_ok() && seen.coordinate(1).is_ok()
        }),
    ),
    (
        "no number is 0",
        Wrong::Test(|seen, d| {
            let nan = |axis| f32::from_bits(seen.bits[axis]).is_nan();
            (0..3).all(|axis| nan(axis) || seen.coordinate(axis).is_ok_and(|c| c.unsigned_abs() <= d))
        }),
    ),
    (
        "over 1000 m is at the limit",
        Wrong::Test(|seen, d| {
            (0..3).all(|axis| match seen.coordinate(axis) {
                Ok(coordinate) => coordinate.unsigned_abs() <= d,
                Err(refusal) => refusal == 31 && d == 1_000_000,
            })
        }),
    ),
    (
        "nothing is rounded",
        Wrong::Test(|seen, d| seen.holds(|_| seen.metres().iter().all(|metres| metres.abs() * 1000.0 <= f64::from(d)))),
    ),
    (
        "fractions are cut off",
        Wrong::Test(|seen, d| {
            seen.holds(|_| seen.metres().iter().all(|metres| (metres.abs() * 1000.0).floor() <= f64::from(d)))
        }),
    ),
    (
        "the distance is in metres",
        Wrong::Test(|seen, d| seen.holds(|xyz| xyz.iter().all(|c| u64::from(c.unsigned_abs()) <= 1000 * u64::from(d)))),
    ),
    (
        "the distance is in centimetres",
        Wrong::Test(|seen, d| seen.holds(|xyz| xyz.iter().all(|c| c.unsigned_abs() <= 10 * d))),
    ),
    ("the distance has 16 bits", Wrong::Test(|seen, d| is_close(seen, d & 0xFFFF))),
    (
        "coordinates have 16 bits",
        Wrong::Test(|seen, d| seen.holds(|xyz| xyz.iter().all(|&c| u32::from((c as i16).unsigned_abs()) <= d))),
    ),
    ("nobody is within 0", Wrong::Test(|seen, d| d > 0 && is_close(seen, d))),
    ("0 asks for everyone", Wrong::Test(|seen, d| is_close(seen, if d == 0 { MAX_DISTANCE } else { d }))),
    ("edition 1 throughout", Wrong::Test(|seen, d| is_close(&Seen { edition: 1, ..*seen }, d))),
    ("edition 2 throughout", Wrong::Test(|seen, d| is_close(&Seen { edition: 2, ..*seen }, d))),
    (
        "either edition",
        Wrong::Test(|seen, d| [1, 2].into_iter().any(|edition| is_close(&Seen { edition, ..*seen }, d))),
    ),
    (
        "Z goes by edition 1",
        Wrong::Test(|seen, d| {
            let first = Seen { edition: 1, ..*seen };
            is_close(seen, d) && first.coordinate(2).is_ok_and(|c| c.unsigned_abs() <= d)
        }),
    ),
];

const WRONG_ROWS: &[(&str, Wrong)] = &[
    ("the open reading", Wrong::Rows(|bytes| read(bytes, false))),
    ("the first packet alone", Wrong::Rows(|bytes| rows(bytes)[..].iter().copied().take(1).collect())),
    ("the last packet alone", Wrong::Rows(|bytes| rows(bytes).last().copied().into_iter().collect())),
    ("a table of 4 rows", Wrong::Rows(|bytes| rows(bytes).into_iter().take(4).collect())),
    ("a table of 64 rows", Wrong::Rows(|bytes| rows(bytes).into_iter().take(64).collect())),
    ("a table of 4096 rows", Wrong::Rows(|bytes| rows(bytes).into_iter().take(4096).collect())),
    ("the first 4096 bytes", Wrong::Rows(|bytes| rows(&bytes[..bytes.len().min(4096)]))),
    ("the first 65,536 bytes", Wrong::Rows(|bytes| rows(&bytes[..bytes.len().min(65_536)]))),
    ("the first packet is left out", Wrong::Rows(|bytes| rows(bytes).into_iter().skip(1).collect())),
    (
        "a packet at the very end is left out",
        Wrong::Rows(|bytes| rows(bytes).into_iter().filter(|(place, length)| place + length < bytes.len()).collect()),
    ),
    (
        "a packet at the start is left out",
        Wrong::Rows(|bytes| rows(bytes).into_iter().filter(|&(place, _)| place > 0).collect()),
    ),
    (
        "the reading starts behind the first byte",
        Wrong::Rows(|bytes| {
            rows(bytes.get(1..).unwrap_or_default()).into_iter().map(|(place, length)| (place + 1, length)).collect()
        }),
    ),
    ("the last byte is not read", Wrong::Rows(|bytes| rows(&bytes[..bytes.len().saturating_sub(1)]))),
    ("the last packet is looked at first", Wrong::Rows(|bytes| rows(bytes).into_iter().rev().collect())),
    (
        "the longest packet is looked at first",
        Wrong::Rows(|bytes| {
            let mut rows = rows(bytes);
            rows.sort_by_key(|&(_, length)| std::cmp::Reverse(length));
            rows
        }),
    ),
    (
        "packets within packets count too",
        Wrong::Rows(|bytes| {
            let judgements = (0..bytes.len()).map(|place| (place, Reference.judge(1, bytes, place)));
            let whole = judgements.filter(|(_, judgement)| judgement.state == WHOLE);
            whole.map(|(place, judgement)| (place, judgement.length as usize)).collect()
        }),
    ),
    (
        "a bad place ends the reading",
        Wrong::Rows(|bytes| walk(bytes, judge, |(judgement, _)| usize::from(judgement.state != BAD))),
    ),
    (
        "a broken packet ends the reading",
        Wrong::Rows(|bytes| walk(bytes, judge, |(judgement, _)| usize::from(judgement.reason <= 20))),
    ),
    (
        "a broken packet is jumped over",
        Wrong::Rows(|bytes| {
            walk(bytes, judge, |(judgement, front)| if judgement.reason > 21 { claimed(front) } else { 1 })
        }),
    ),
    (
        "a waiting packet is jumped over",
        Wrong::Rows(|bytes| {
            walk(bytes, judge, |(judgement, front)| if judgement.state == WAITING { claimed(front) } else { 1 })
        }),
    ),
    ("places go by four", Wrong::Rows(|bytes| walk(bytes, judge, |_| 4))),
    (
        "vital signs count too",
        Wrong::Rows(|bytes| {
            walk(bytes, |bytes, place| either(judge(bytes, place), Reference.judge(2, bytes, place)), |_| 1)
        }),
    ),
    (
        "vital signs are passed over",
        Wrong::Rows(|bytes| {
            let of_both =
                walk(bytes, |bytes, place| either(Reference.judge(2, bytes, place), judge(bytes, place)), |_| 1);
            of_both.into_iter().filter(|&(place, _)| judge(bytes, place).state == WHOLE).collect()
        }),
    ),
];

/// The first if it is whole, else the second.
fn either(first: Judgement, second: Judgement) -> Judgement {
    if first.state == WHOLE {
        first
    } else {
        second
    }
}

fn judge(bytes: &[u8], place: usize) -> Judgement {
    Reference.judge(1, bytes, place)
}

const WRONG_TYPES: &[(&str, Wrong)] = &[
    ("a type may come again, and the first record of type 1 counts", Wrong::AnyTypes(points_of)),
    (
        "a type may come again, and the last record of type 1 counts",
        Wrong::AnyTypes(|asked, row, packet| {
            points_from(asked, row, packet, |records| records.iter().rev().copied().find(|record| record.tag == 1))
        }),
    ),
    (
        "a type may come again, and every record of type 1 counts",
        Wrong::AnyTypes(|asked, row, packet| {
            let records = records(&asked.bytes[packet.0..packet.0 + packet.1]);
            let points = records.into_iter().filter(|record| record.tag == 1);
            points.flat_map(|record| points_in(asked, row, packet.0, record)).collect()
        }),
    ),
    (
        "a packet with a repeated type is one without points",
        Wrong::AnyTypes(|asked, row, packet| match judge(asked.bytes, packet.0).state {
            WHOLE => points_of(asked, row, packet),
            _ => Vec::new(),
        }),
    ),
    (
        "a packet with a repeated type ends the reading",
        Wrong::Rows(|bytes| walk(bytes, judge, |(judgement, _)| usize::from(judgement.reason != 25))),
    ),
    (
        "a packet with a repeated type is jumped over",
        Wrong::Rows(|bytes| {
            walk(bytes, judge, |(judgement, front)| if judgement.reason == 25 { claimed(front) } else { 1 })
        }),
    ),
    ("1 may come again", Wrong::Rows(|bytes| with_types(bytes, |t, before| t != 1 && is_excluded(t, before)))),
    ("1 alone may not come again", Wrong::Rows(|bytes| with_types(bytes, |t, before| t == 1 && before.contains(&1)))),
    ("4 and 8 go together", Wrong::Rows(|bytes| with_types(bytes, |t, before| is_known(t) && before.contains(&t)))),
    (
        "only the record right before counts",
        Wrong::Rows(|bytes| with_types(bytes, |t, before| is_excluded(t, &before[before.len().saturating_sub(1)..]))),
    ),
    (
        "no type may come again",
        Wrong::Rows(|bytes| with_types(bytes, |t, before| is_excluded(t, before) || before.contains(&t))),
    ),
    (
        "a type that comes again has 8 bits",
        Wrong::Rows(|bytes| {
            with_types(bytes, |t, before| {
                is_excluded(t & 0xFF, &before.iter().map(|other| other & 0xFF).collect::<Vec<_>>())
            })
        }),
    ),
];

const WRONG_POINTS: &[(&str, Wrong)] = &[
    (
        "the first record must have type 1",
        Wrong::Points(|asked, row, packet| {
            points_from(asked, row, packet, |records| records.first().copied().filter(|record| record.tag == 1))
        }),
    ),
    (
        "the last record must have type 1",
        Wrong::Points(|asked, row, packet| {
            points_from(asked, row, packet, |records| records.last().copied().filter(|record| record.tag == 1))
        }),
    ),
    (
        "the only record must have type 1",
        Wrong::Points(|asked, row, packet| {
            points_from(asked, row, packet, |records| {
                records.first().copied().filter(|record| records.len() == 1 && record.tag == 1)
            })
        }),
    ),
    (
        "the first record has the points",
        Wrong::Points(|asked, row, packet| points_from(asked, row, packet, |records| records.first().copied())),
    ),
    (
        "a type has 8 bits",
        Wrong::Points(|asked, row, packet| {
            points_from(asked, row, packet, |records| records.iter().copied().find(|record| record.tag & 0xFF == 1))
        }),
    ),
    (
        "a header has 44 bytes",
        Wrong::Points(|asked, row, packet| {
            shifted(asked, points_of(asked, row, packet), |seen| seen.record + 12 + 16 * seen.index)
        }),
    ),
    (
        "a record's header is its first point",
        Wrong::Points(|asked, row, packet| {
            shifted(asked, points_of(asked, row, packet), |seen| seen.record + 16 * seen.index)
        }),
    ),
    (
        "a point has 12 bytes",
        Wrong::Points(|asked, row, packet| {
            shifted(asked, points_of(asked, row, packet), |seen| seen.record + 8 + 12 * seen.index)
        }),
    ),
    (
        "all X come first",
        Wrong::Points(|asked, row, packet| {
            let points = points_of(asked, row, packet);
            let count = points.len();
            let word = |number: usize| points[number / 4].bits[number % 4];
            let bits = |index| [0, 1, 2, 3].map(|axis| word(axis * count + index));
            points.iter().map(|seen| Seen { bits: bits(seen.index), ..*seen }).collect()
        }),
    ),
    (
        "the greatest byte comes first",
        Wrong::Points(|asked, row, packet| {
            let points = points_of(asked, row, packet).into_iter();
            points.map(|seen| Seen { bits: seen.bits.map(u32::swap_bytes), ..seen }).collect()
        }),
    ),
    (
        "the first point is left out",
        Wrong::Points(|asked, row, packet| points_of(asked, row, packet).into_iter().skip(1).collect()),
    ),
    (
        "the last point is left out",
        Wrong::Points(|asked, row, packet| {
            let mut points = points_of(asked, row, packet);
            points.pop();
            points
        }),
    ),
    (
        "the first point alone",
        Wrong::Points(|asked, row, packet| points_of(asked, row, packet).into_iter().take(1).collect()),
    ),
    (
        "the first 16 points",
        Wrong::Points(|asked, row, packet| points_of(asked, row, packet).into_iter().take(16).collect()),
    ),
    (
        "the first 256 points",
        Wrong::Points(|asked, row, packet| points_of(asked, row, packet).into_iter().take(256).collect()),
    ),
    (
        "every second point",
        Wrong::Points(|asked, row, packet| points_of(asked, row, packet).into_iter().step_by(2).collect()),
    ),
    (
        "the last point is looked at first",
        Wrong::Points(|asked, row, packet| points_of(asked, row, packet).into_iter().rev().collect()),
    ),
    (
        "a refused point ends its packet",
        Wrong::Points(|asked, row, packet| {
            points_of(asked, row, packet).into_iter().take_while(|seen| !seen.is_refused()).collect()
        }),
    ),
    (
        "a refused point takes its packet with it",
        Wrong::Points(|asked, row, packet| {
            let points = points_of(asked, row, packet);
            if points.iter().any(Seen::is_refused) {
                return Vec::new();
            }
            points
        }),
    ),
];

/// The points, with the numbers that stand somewhere else in their packets.
fn shifted(asked: Asked, points: Vec<Seen>, from: fn(&Seen) -> usize) -> Vec<Seen> {
    let moved = |seen: Seen| seen_at(asked, seen.row, seen.place, seen.record + 8, seen.index, from(&seen));
    points.into_iter().map(moved).collect()
}

const WRONG_ORDERS: &[(&str, Wrong)] = &[
    (
        "a refused point ends the search",
        Wrong::All(|_, all| all.into_iter().take_while(|seen| !seen.is_refused()).collect()),
    ),
    (
        "a packet without points ends the search",
        Wrong::All(|asked, all| {
            let rows = rows(asked.bytes);
            let first = (0..rows.len()).find(|&row| points_of(asked, row, rows[row]).is_empty()).unwrap_or(rows.len());
            all.into_iter().filter(|seen| seen.row < first).collect()
        }),
    ),
    ("the last point that is close", Wrong::All(|_, all| all.into_iter().rev().collect())),
    (
        "the nearest point",
        Wrong::All(|_, mut all| {
            all.sort_by_key(|seen| seen.coordinates_or(i32::MAX).map(i32::unsigned_abs).into_iter().max());
            all
        }),
    ),
    (
        "the least index",
        Wrong::All(|_, mut all| {
            all.sort_by_key(|seen| seen.index);
            all
        }),
    ),
    ("the first 100 points of all", Wrong::All(|_, all| all.into_iter().take(100).collect())),
    (
        "a packet that breaks off counts as far as it goes",
        Wrong::All(|asked, mut all| {
            for place in 0..asked.bytes.len() {
                let (waits, front) = (judge(asked.bytes, place).state == WAITING, &asked.bytes[place..]);
                if waits && front.get(40..44) == Some(&[1, 0, 0, 0]) && all.iter().all(|seen| seen.place < place) {
                    let record =
                        Record { refusal: 0, tag: 1, start: 48, length: front.len().saturating_sub(48) as u64 };
                    all.extend(points_in(asked, 0, place, record));
                }
            }
            all
        }),
    ),
];

const WRONG_TOLD: &[(&str, Wrong)] = &[
    ("the index counts all points of the capture", Wrong::Told(|_, seen| at(seen.place, seen.number))),
    ("the index counts from 1", Wrong::Told(|_, seen| at(seen.place, seen.index + 1))),
    (
        "the index counts readable points",
        Wrong::Told(|asked, seen| {
            let points = points_of(asked, seen.row, row_at(asked, seen.place));
            at(seen.place, points[..seen.index].iter().filter(|before| !before.is_refused()).count())
        }),
    ),
    ("the index counts bytes", Wrong::Told(|_, seen| at(seen.place, 16 * seen.index))),
    (
        "the index counts from the packet's end",
        Wrong::Told(|asked, seen| {
            at(seen.place, points_of(asked, seen.row, row_at(asked, seen.place)).len() - 1 - seen.index)
        }),
    ),
    ("the index has 8 bits", Wrong::Told(|_, seen| at(seen.place, seen.index & 0xFF))),
    ("the index is 0", Wrong::Told(|_, seen| at(seen.place, 0))),
    ("the index is at most 255", Wrong::Told(|_, seen| at(seen.place, seen.index.min(255)))),
    ("the place is 0", Wrong::Told(|_, seen| at(0, seen.index))),
    ("the place is the record's", Wrong::Told(|_, seen| at(seen.place + seen.record, seen.index))),
    ("the place is the point's", Wrong::Told(|_, seen| at(seen.place + seen.record + 8 + 16 * seen.index, seen.index))),
    (
        "the place is behind the packet",
        Wrong::Told(|asked, seen| at(seen.place + row_at(asked, seen.place).1, seen.index)),
    ),
    ("the place is the packet's number", Wrong::Told(|_, seen| at(seen.row, seen.index))),
    (
        "the place counts from the first packet",
        Wrong::Told(|asked, seen| at(seen.place - rows(asked.bytes)[0].0, seen.index)),
    ),
    (
        "the place counts without skipped bytes",
        Wrong::Told(|asked, seen| {
            let before = rows(asked.bytes)[..seen.row].iter().map(|(_, length)| length).sum();
            at(before, seen.index)
        }),
    ),
    (
        "the place counts from the packet before",
        Wrong::Told(|asked, seen| {
            let before = seen.row.checked_sub(1).map_or(0, |row| rows(asked.bytes)[row].0);
            at(seen.place - before, seen.index)
        }),
    ),
    ("the place counts from 1", Wrong::Told(|_, seen| at(seen.place + 1, seen.index))),
    ("the place has 16 bits", Wrong::Told(|_, seen| at(seen.place & 0xFFFF, seen.index))),
    ("the place has 15 bits", Wrong::Told(|_, seen| at(seen.place & 0x7FFF, seen.index))),
    ("place and index change places", Wrong::Told(|_, seen| at(seen.index, seen.place))),
    ("no place and no index", Wrong::Told(|_, _| at(0, 0))),
    ("a yes is 2", Wrong::Told(|_, seen| Closeness { close: 2, ..at(seen.place, seen.index) })),
    ("a yes is all ones", Wrong::Told(|_, seen| Closeness { close: u32::MAX, ..at(seen.place, seen.index) })),
    (
        "a yes counts the points that are close",
        Wrong::Told(|asked, seen| {
            let points = points_of(asked, seen.row, row_at(asked, seen.place));
            let close = points.iter().filter(|seen| is_close(seen, asked.distance)).count() as u32;
            Closeness { close, ..at(seen.place, seen.index) }
        }),
    ),
    ("a yes is no", Wrong::Told(|_, seen| Closeness { close: 0, ..at(seen.place, seen.index) })),
    (
        "place 0 and index 0 are a no",
        Wrong::Told(|_, seen| Closeness {
            close: u32::from(seen.place + seen.index > 0),
            ..at(seen.place, seen.index)
        }),
    ),
    ("place 0 is a no", Wrong::Told(|_, seen| if seen.place == 0 { NOBODY } else { at(seen.place, seen.index) })),
    ("index 0 is a no", Wrong::Told(|_, seen| if seen.index == 0 { NOBODY } else { at(seen.place, seen.index) })),
];

/// The row of the packet at this place.
fn row_at(asked: Asked, place: usize) -> Row {
    rows(asked.bytes).into_iter().find(|row| row.0 == place).expect("a packet stands there")
}

const WRONG_REFUSALS: &[(&str, Wrong)] = &[
    ("3 comes before 1", Wrong::Refusal(|asked| in_order(asked, &[3, 1, 32, 33]))),
    ("32 comes before 1", Wrong::Refusal(|asked| in_order(asked, &[32, 1, 3, 33]))),
    ("33 comes before 1", Wrong::Refusal(|asked| in_order(asked, &[33, 1, 3, 32]))),
    ("32 comes before 3", Wrong::Refusal(|asked| in_order(asked, &[1, 32, 3, 33]))),
    ("33 comes before 3", Wrong::Refusal(|asked| in_order(asked, &[1, 33, 3, 32]))),
    ("33 comes before 32", Wrong::Refusal(|asked| in_order(asked, &[1, 3, 33, 32]))),
    ("the greatest number comes first", Wrong::Refusal(|asked| in_order(asked, &[33, 32, 3, 1]))),
    ("no dialect is refused", Wrong::Refusal(|asked| in_order(asked, &[3, 32, 33]))),
    ("no size is refused", Wrong::Refusal(|asked| in_order(asked, &[1, 32, 33]))),
    ("no edition is refused", Wrong::Refusal(|asked| in_order(asked, &[1, 3, 33]))),
    ("no distance is refused", Wrong::Refusal(|asked| in_order(asked, &[1, 3, 32]))),
    ("dialect 0 is admitted", Wrong::Refusal(|asked| in_dialect(asked, |dialect| dialect.max(1)))),
    (
        "dialect 2 is admitted",
        Wrong::Refusal(|asked| in_dialect(asked, |dialect| if dialect == 2 { 1 } else { dialect })),
    ),
    (
        "dialects 0 to 2 are admitted",
        Wrong::Refusal(|asked| in_dialect(asked, |dialect| if dialect < 3 { 1 } else { dialect })),
    ),
    ("a dialect has 8 bits", Wrong::Refusal(|asked| in_dialect(asked, |dialect| dialect & 0xFF))),
    ("a dialect has 16 bits", Wrong::Refusal(|asked| in_dialect(asked, |dialect| dialect & 0xFFFF))),
    ("a dialect has 31 bits", Wrong::Refusal(|asked| in_dialect(asked, |dialect| dialect & i32::MAX as u32))),
    (
        "dialect 16 is admitted",
        Wrong::Refusal(|asked| in_dialect(asked, |dialect| if dialect == 16 { 1 } else { dialect })),
    ),
    ("dialect 1 is refused", Wrong::Refusal(|asked| in_dialect(asked, |dialect| dialect ^ 1))),
    (
        "as many bytes as can be lent are refused",
        Wrong::Refusal(|asked| match in_order(asked, &[1, 3, 32, 33]) {
            0 | 32 | 33 if asked.bytes.len() == MAX_BYTES => 3,
            refusal => refusal,
        }),
    ),
    (
        "no bytes are refused",
        Wrong::Refusal(|asked| match in_order(asked, &[1, 3, 32, 33]) {
            0 if asked.bytes.is_empty() => 3,
            refusal => refusal,
        }),
    ),
    ("1,000,000 is refused", Wrong::Refusal(|asked| at_distance(asked, |distance| distance >= 1_000_000))),
    ("0 is refused", Wrong::Refusal(|asked| at_distance(asked, |distance| distance == 0 || distance > 1_000_000))),
    ("1,000,001 is admitted", Wrong::Refusal(|asked| at_distance(asked, |distance| distance > 1_000_001))),
    ("a distance has a sign", Wrong::Refusal(|asked| at_distance(asked, |distance| distance as i32 > 1_000_000))),
    (
        "a distance has 31 bits",
        Wrong::Refusal(|asked| at_distance(asked, |distance| distance & i32::MAX as u32 > 1_000_000)),
    ),
    ("the limit is 2 to the 20th", Wrong::Refusal(|asked| at_distance(asked, |distance| distance > 1 << 20))),
    (
        "33 is 31",
        Wrong::Refusal(|asked| match in_order(asked, &[1, 3, 32, 33]) {
            33 => 31,
            refusal => refusal,
        }),
    ),
    ("32 comes where there is a packet", Wrong::Refusal(|asked| where_packets_are(asked, 32))),
    ("33 comes where there is a packet", Wrong::Refusal(|asked| where_packets_are(asked, 33))),
];

/// Refusals by another dialect than the one named.
fn in_dialect(asked: Asked, other: fn(u32) -> u32) -> u32 {
    in_order(Asked { dialect: other(asked.dialect), ..asked }, &[1, 3, 32, 33])
}

/// Refusals with another rule for 33.
fn at_distance(asked: Asked, refused: fn(u32) -> bool) -> u32 {
    match in_order(asked, &[1, 3, 32]) {
        0 if refused(asked.distance) => 33,
        refusal => refusal,
    }
}

/// This refusal is given only where a packet stands.
fn where_packets_are(asked: Asked, late: u32) -> u32 {
    match in_order(asked, &[1, 3, 32, 33]) {
        refusal if refusal == late && rows(asked.bytes).is_empty() => 0,
        refusal => refusal,
    }
}

const WRONG_ANSWERS: &[(&str, Wrong)] = &[
    ("always no", Wrong::Answer(|_, right| if right.refusal == 0 { NOBODY } else { right })),
    ("always yes", Wrong::Answer(|_, right| if right == NOBODY { at(0, 0) } else { right })),
    ("every question is refused", Wrong::Answer(|_, right| refused(right.refusal.max(1)))),
    ("a refusal is a no", Wrong::Answer(|_, right| Closeness { refusal: 0, ..right })),
    (
        "a refusal is a yes",
        Wrong::Answer(|_, right| Closeness { close: if right.refusal == 0 { right.close } else { 1 }, ..right }),
    ),
    (
        "a refusal tells a place",
        Wrong::Answer(|asked, right| match right.refusal {
            0 => right,
            _ => Closeness { place: asked.bytes.len() as u64, ..right },
        }),
    ),
    (
        "a no has the place of the end",
        Wrong::Answer(|asked, right| match right {
            NOBODY => Closeness { place: asked.bytes.len() as u64, ..right },
            _ => right,
        }),
    ),
    (
        "a no has the last packet's place",
        Wrong::Answer(|asked, right| match right {
            NOBODY => Closeness { place: rows(asked.bytes).last().map_or(0, |row| row.0) as u64, ..right },
            _ => right,
        }),
    ),
    (
        "a no counts the points",
        Wrong::Answer(|asked, right| match right {
            NOBODY => Closeness { index: every_point(asked).len() as u64, ..right },
            _ => right,
        }),
    ),
    (
        "a no has the last index",
        Wrong::Answer(|asked, right| match right {
            NOBODY => Closeness { index: every_point(asked).last().map_or(0, |seen| seen.index) as u64, ..right },
            _ => right,
        }),
    ),
    (
        "a point's refusal is passed on",
        Wrong::Answer(|asked, right| match right {
            NOBODY => {
                let refusals =
                    every_point(asked).into_iter().flat_map(|seen| [0, 1, 2].map(|axis| seen.coordinate(axis)));
                refused(refusals.filter_map(Result::err).next().unwrap_or(0))
            }
            _ => right,
        }),
    ),
    (
        "no points are refused with 7",
        Wrong::Answer(|asked, right| match right {
            NOBODY if !rows(asked.bytes).is_empty() && every_point(asked).is_empty() => refused(7),
            _ => right,
        }),
    ),
    (
        "no packets are refused with 5",
        Wrong::Answer(|asked, right| match right {
            NOBODY if rows(asked.bytes).is_empty() => refused(5),
            _ => right,
        }),
    ),
];

fn every_point(asked: Asked) -> Vec<Seen> {
    let rows = rows(asked.bytes).into_iter().enumerate();
    rows.flat_map(|(number, row)| points_of(asked, number, row)).collect()
}
