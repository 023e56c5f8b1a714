//! The feeder: a subject against the reader call by call, and the request's own sentence (paper 02 (iii)) on what the subject
//! answers: the rows of the accepted calls, joined, are those of the open reading of their new bytes at once.
//!
//! A stream is read as a host reads it: after 60 it lends a larger carry, after 61 a larger table or fewer bytes, after 3 it
//! goes on with a new stream. Between its calls stand some that are refused, of any dialect.

use std::fmt::{self, Debug};

use super::{Difference, Sample, Tally};
use crate::abi::feeding::{Fed, FeedSubject, Stream};
use crate::abi::Reference;
use crate::generate::random::Random;
use crate::generate::{Family, LISTING_EXAMPLE};
use crate::judgement::{DIALECTS, MMWAVE, SIRAD, VITAL_SIGNS};
use crate::packet_rules::MAGIC;
use crate::reading::{self, ROW};
use crate::refusal::{CARRY_TOO_SHORT, MAX_BYTES, TABLE_TOO_SHORT, TOO_MANY_BYTES};

/// What is asked of a subject's calls.
#[derive(Clone, Copy, Debug, PartialEq, Eq)]
pub enum Asked {
    /// Each is the reader's call; the accepted ones are as one reading, and the refused ones change nothing.
    Calls,
    /// The accepted calls are as one reading, and the refused ones change nothing. The reader's feeder is not asked.
    AsOne,
}

/// What a call is handed.
#[derive(Clone, Copy)]
struct Call<'a> {
    dialect: u32,
    stream: Stream,
    carry: &'a [u8],
    bytes: &'a [u8],
    /// The table's numbers, each of which is set before.
    numbers: usize,
}

/// What a call leaves: the answer, and both buffers with what stands behind them.
struct Left {
    fed: Fed,
    carry: Vec<u8>,
    table: Vec<u32>,
}

/// Bytes and numbers behind those that are lent.
const BEHIND: usize = 8;
/// What stands in a carry buffer before it is used.
const FILLER: u8 = 0xC3;

impl Call<'_> {
    fn carry_before(&self) -> Vec<u8> {
        [self.carry, &[FILLER; BEHIND]].concat()
    }

    fn table_before(&self) -> Vec<u32> {
        (0..(self.numbers + BEHIND) as u32).map(|index| 0xA5A5_0000 ^ index).collect()
    }

    fn ask(&self, subject: &dyn FeedSubject) -> Left {
        let (mut carry, mut table) = (self.carry_before(), self.table_before());
        let (lent_carry, lent_table) = (&mut carry[..self.carry.len()], &mut table[..self.numbers]);
        let fed = subject.feed(self.dialect, self.stream, lent_carry, self.bytes, lent_table);
        Left { fed, carry, table }
    }

    /// Compares the answer and all of both buffers with what they should be.
    fn compare(&self, expected: &Left, left: &Left) -> Result<(), String> {
        if left.fed != expected.fed {
            return Err(format!("{self}: expected {:?}, answered {:?}", expected.fed, left.fed));
        }
        self.compare_all("carry byte", &expected.carry, &left.carry)?;
        self.compare_all("table number", &expected.table, &left.table)
    }

    fn compare_all<T: PartialEq + Debug>(&self, what: &str, expected: &[T], left: &[T]) -> Result<(), String> {
        if left == expected {
            return Ok(());
        }
        let index = left.iter().zip(expected).take_while(|(one, other)| one == other).count();
        Err(format!("{self}: {what} {index} should be {:?}, is {:?}", expected[index], left[index]))
    }

    /// Asks the subject. Whatever else is asked, a refusal returns the stream as it was handed in and changes nothing.
    fn check(&self, subject: &dyn FeedSubject, asked: Asked) -> Result<Left, String> {
        let left = self.ask(subject);
        if asked == Asked::Calls {
            self.compare(&self.ask(&Reference), &left)?;
        }
        if left.fed.refusal != 0 {
            let fed = Fed { refusal: left.fed.refusal, rows: 0, stream: self.stream };
            self.compare(&Left { fed, carry: self.carry_before(), table: self.table_before() }, &left)?;
        }
        Ok(left)
    }
}

impl fmt::Display for Call<'_> {
    fn fmt(&self, out: &mut fmt::Formatter) -> fmt::Result {
        let Call { dialect, stream, carry, bytes, numbers } = self;
        let (room, count) = (carry.len(), bytes.len());
        write!(out, "dialect {dialect}, {stream:?}, a carry of {room}, {count} new bytes, a table of {numbers}")
    }
}

impl Tally {
    fn count_fed(&mut self, fed: &Fed) {
        self.count(match *fed {
            Fed { refusal: 0, rows: 0, .. } => "no row".to_owned(),
            Fed { refusal: 0, .. } => "rows".to_owned(),
            Fed { refusal, .. } => format!("refused {refusal}"),
        });
    }
}

/// A host at a line's end: what it lends and keeps between two calls, and what it has read.
struct Host<'a> {
    subject: &'a dyn FeedSubject,
    asked: Asked,
    dialect: u32,
    stream: Stream,
    carry: Vec<u8>,
    numbers: usize,
    /// After 61: fewer bytes first, instead of a larger table.
    fewer: bool,
    /// Whether a larger buffer is twice as large and one, or just one larger.
    doubles: bool,
    /// The line's place where the stream began.
    start: u64,
    /// The new bytes of all accepted calls and their rows, at the line's places.
    taken: Vec<u8>,
    rows: Vec<u32>,
    tally: Tally,
}

impl<'a> Host<'a> {
    fn new(subject: &'a dyn FeedSubject, asked: Asked, dialect: u32, room: usize, numbers: usize) -> Host<'a> {
        Host {
            subject,
            asked,
            dialect,
            stream: Stream::default(),
            carry: vec![FILLER; room],
            numbers,
            fewer: false,
            doubles: true,
            start: 0,
            taken: Vec::new(),
            rows: Vec::new(),
            tally: Tally::default(),
        }
    }

    /// One call with stream and carry as the feeder left them. Answers its refusal.
    fn call(&mut self, bytes: &[u8]) -> Result<u32, String> {
        let Host { dialect, stream, numbers, .. } = *self;
        let call = Call { dialect, stream, carry: &self.carry, bytes, numbers };
        let Left { fed, mut carry, table } = call.check(self.subject, self.asked)?;
        if fed.refusal == 0 {
            let written = (fed.rows as usize).checked_mul(ROW).filter(|&written| written <= numbers);
            let written = written.ok_or_else(|| format!("{call}: the table has no room for {} rows", fed.rows))?;
            let start = self.start as u32;
            let rows = table[..written].chunks(ROW);
            self.rows.extend(rows.flat_map(|row| [row[0].wrapping_add(start), row[1], row[2]]));
            self.taken.extend(bytes);
        }
        carry.truncate(self.carry.len());
        (self.stream, self.carry) = (fed.stream, carry);
        self.tally.count_fed(&fed);
        Ok(fed.refusal)
    }

    /// All of these bytes, with what a host does after a refusal.
    fn offer(&mut self, mut bytes: &[u8]) -> Result<(), String> {
        let mut count = bytes.len();
        loop {
            match self.call(&bytes[..count])? {
                0 => {
                    bytes = &bytes[count..];
                    count = bytes.len();
                    if bytes.is_empty() {
                        return Ok(());
                    }
                }
                CARRY_TOO_SHORT if self.carry.len() <= MAX_BYTES => {
                    self.carry.resize(self.larger(self.carry.len()), FILLER);
                }
                TABLE_TOO_SHORT if self.fewer && count > 1 => count /= 2,
                TABLE_TOO_SHORT if self.numbers <= MAX_BYTES => self.numbers = self.larger(self.numbers),
                TOO_MANY_BYTES if self.stream.place > 0 => {
                    self.start += self.stream.place;
                    self.stream.place = 0;
                }
                refusal => return Err(format!("{:?}: a host can't go on after {refusal}", self.stream)),
            }
        }
    }

    fn larger(&self, size: usize) -> usize {
        size + 1 + if self.doubles { size } else { 0 }
    }

    /// A call of any dialect and state, in between. Only one that is refused may have been made on this line: what it leaves is
    /// what the line goes on with.
    fn disturb(&mut self, random: &mut Random, bytes: &[u8]) -> Result<(), String> {
        let Stream { place, waiting } = self.stream;
        let stream = random.pick(&[
            self.stream,
            self.stream,
            self.stream,
            Stream { place, waiting: self.carry.len() as u64 + 1 },
            Stream { place: (MAX_BYTES + 1) as u64, waiting },
            Stream { place: u64::MAX, waiting },
        ]);
        let dialect = random.pick(&[0, 1, 2, 3, 16, u32::MAX]);
        let numbers = random.pick(&[0, 2, self.numbers]);
        let Left { fed, mut carry, .. } =
            Call { dialect, stream, carry: &self.carry, bytes, numbers }.check(self.subject, self.asked)?;
        self.tally.count_fed(&fed);
        if fed.refusal != 0 {
            carry.truncate(self.carry.len());
            self.carry = carry;
            if stream == self.stream {
                self.stream = fed.stream;
            }
        }
        Ok(())
    }

    /// "Their rows, joined, are those of the open reading of their new bytes at once with room for them"; the state is that
    /// reading's next place and the bytes from there on.
    fn check_as_one(&self) -> Result<(), String> {
        let mut rows = vec![0; ROW * (self.taken.len() / 8)];
        let reading = reading::read(self.dialect, &self.taken, &mut rows, false);
        rows.truncate(ROW * reading.rows);
        let what = || format!("dialect {}, {} bytes in calls", self.dialect, self.taken.len());
        if self.rows != rows {
            let same = self.rows.iter().zip(&rows).take_while(|(one, other)| one == other).count() / ROW;
            let (own, at_once) = (self.rows.len() / ROW, reading.rows);
            return Err(format!("{}: {own} rows, at once {at_once}, and they part at row {same}", what()));
        }
        let next = self.start.checked_add(self.stream.place);
        if next != Some(reading.next as u64) {
            return Err(format!("{}: {:?}, at once the next place is {}", what(), self.stream, reading.next));
        }
        if self.carry.get(..self.stream.waiting as usize) != Some(&self.taken[reading.next..]) {
            return Err(format!("{}: {:?}, and these are not the bytes that wait", what(), self.stream));
        }
        Ok(())
    }
}

/// A run over lines of which each is told by its sample.
struct Run<'a> {
    subject: &'a dyn FeedSubject,
    asked: Asked,
    tally: Tally,
}

impl<'a> Run<'a> {
    fn new(subject: &'a dyn FeedSubject, asked: Asked) -> Run<'a> {
        Run { subject, asked, tally: Tally::default() }
    }

    fn host(&self, dialect: u32, room: usize, numbers: usize) -> Host<'a> {
        Host::new(self.subject, self.asked, dialect, room, numbers)
    }

    /// Adds what a host has counted.
    fn add(&mut self, host: Host) {
        self.tally.total += host.tally.total;
        for (answer, count) in host.tally.answers {
            *self.tally.answers.entry(answer).or_default() += count;
        }
    }

    /// One line in these pieces, with buffers that grow from none.
    fn read_pieces<'p>(
        &mut self,
        dialect: u32,
        pieces: impl Iterator<Item = &'p [u8]>,
        (fewer, doubles): (bool, bool),
    ) -> Result<(), String> {
        let mut host = Host { fewer, doubles, ..self.host(dialect, 0, 0) };
        for piece in pieces {
            host.offer(piece)?;
        }
        host.check_as_one()?;
        self.add(host);
        Ok(())
    }
}

/// The pieces between these places, which rise.
fn pieces<'a>(bytes: &'a [u8], cuts: &[usize]) -> impl Iterator<Item = &'a [u8]> {
    let starts: Vec<usize> = [0].iter().chain(cuts).copied().collect();
    let ends: Vec<usize> = cuts.iter().copied().chain([bytes.len()]).collect();
    starts.into_iter().zip(ends).map(|(start, end)| &bytes[start..end])
}

/// Few bytes and the places where they may be cut: all, or some.
struct Short {
    dialect: u32,
    bytes: Vec<u8>,
    places: Vec<usize>,
}

impl Short {
    fn sirad(bytes: &[u8]) -> Short {
        Short { dialect: SIRAD, bytes: bytes.to_vec(), places: (1..bytes.len()).collect() }
    }

    /// Three bytes of noise that begin like a magic, a packet, and the start of another.
    fn packet(dialect: u32, fields: [u32; 8], behind: &[u32]) -> Short {
        let fields = fields.iter().chain(behind).flat_map(|field| field.to_le_bytes());
        let mut bytes = [&[2, 2, 1], &MAGIC[..]].concat();
        bytes.extend(fields);
        let end = bytes.len();
        bytes.extend(&MAGIC[..3]);
        Short { dialect, bytes, places: vec![1, 2, 3, 4, 10, 11, 18, 19, 35, 39, end - 1, end, end + 1] }
    }

    /// Every set of the places, with empty calls around the pieces and without.
    fn compare(&self, run: &mut Run) -> Result<(), Difference> {
        for set in 0..1usize << self.places.len() {
            let cuts = self.places.iter().enumerate().filter(|(index, _)| set >> index & 1 == 1);
            let cuts: Vec<usize> = cuts.map(|(_, &place)| place).collect();
            let with_empty =
                pieces(&self.bytes, &cuts).flat_map(|piece| [&piece[..0], piece]).chain([&self.bytes[..0]]);
            // By one, where the bytes are few enough.
            let doubles = self.dialect != SIRAD;
            run.read_pieces(self.dialect, pieces(&self.bytes, &cuts), (false, doubles))
                .and_then(|()| run.read_pieces(self.dialect, with_empty, (true, doubles)))
                .map_err(|what| Difference {
                    what: format!("cut at {cuts:?}: {what}"),
                    origin: "every cutting of short bytes, without a seed".to_owned(),
                    bytes: self.bytes.clone(),
                })?;
        }
        Ok(())
    }
}

/// Frames, false starts and frames inside them; packets of every dialect.
fn shorts() -> Vec<Short> {
    vec![
        Short::sirad(b""),
        Short::sirad(b"!"),
        Short::sirad(b"!E0000\r\n"),
        Short::sirad(b" !E0001\r\n!!"),
        Short::sirad(b"!E00!E0F1A\r\n"),
        Short::sirad(b"!R0001!E0000\r\n"),
        Short::sirad(b"!E0000\r\n!E000a"),
        Short::sirad(b"!U!!E0000\r\n!R0"),
        Short::packet(MMWAVE, [1, 64, 3, 4, 5, 0, 0, 6], &[7; 6]),
        Short::packet(MMWAVE, [1, 64, 3, 4, 5, 0, 1, 6], &[10, 16, 7, 7, 7, 7]),
        Short::packet(MMWAVE, [1, 64, 3, 4, 5, 0, 1, 6], &[6, 24]),
        Short::packet(VITAL_SIGNS, [1, 40, 3, 4, 5, 99, 0, 0], &[]),
        Short::packet(VITAL_SIGNS, [1, 52, 3, 4, 5, 99, 1, 0], &[2, 4, 7]),
        Short::packet(VITAL_SIGNS, [1, 52, 3, 4, 5, 99, 1, 1], &[2, 4, 7]),
    ]
}

/// Every cutting of short bytes, with empty calls and without, and every cutting in three of short captures. Both buffers grow
/// from none.
pub fn compare_cuttings(subject: &dyn FeedSubject, asked: Asked, first_seed: u64) -> Result<Tally, Difference> {
    let mut run = Run::new(subject, asked);
    for short in shorts() {
        short.compare(&mut run)?;
    }
    for (seed, dialect) in (first_seed..).zip(DIALECTS) {
        for (family, length) in Family::ALL.into_iter().zip([100, 90, 80, 70, 60]) {
            let sample = Sample::of(dialect, family, seed, if dialect == SIRAD { length } else { 2 * length });
            let end = sample.bytes.len();
            for (first, second) in (0..=end).flat_map(|first| (first..=end).map(move |second| (first, second))) {
                run.read_pieces(dialect, pieces(&sample.bytes, &[first, second]), (false, true))
                    .map_err(|what| sample.difference(&sample.bytes, format!("cut at {first}, {second}: {what}")))?;
            }
        }
    }
    Ok(run.tally)
}

/// At least so many calls: captures cut at random, with buffers of any size to begin with and refused calls in between.
pub fn compare_streams(
    subject: &dyn FeedSubject,
    asked: Asked,
    first_seed: u64,
    at_least: u64,
) -> Result<Tally, Difference> {
    let mut run = Run::new(subject, asked);
    for seed in first_seed.. {
        if run.tally.total >= at_least {
            break;
        }
        let lengths: &[usize] = if seed % 50 == 0 { &[90_000, 200_000] } else { &[40, 200, 600, 3000, 9000] };
        let mut random = Random::new(!seed);
        let sample = if seed % 50 == 25 { longest(&mut random) } else { Sample::new(seed, lengths) };
        let host = read_sample(&run, &mut random, &sample);
        run.add(host.map_err(|what| sample.difference(&sample.bytes, what))?);
    }
    Ok(run.tally)
}

fn read_sample<'a>(run: &Run<'a>, random: &mut Random, sample: &Sample) -> Result<Host<'a>, String> {
    let room = random.pick(&[0, 1, 7, 40, 229, 230, 1000, 32_767, 65_550, 65_551, 70_000]);
    let numbers = random.pick(&[0, 1, 3, 5, 6, 30, 600, 3000]);
    let mut host = Host { fewer: random.once_in(2), ..run.host(sample.dialect, room, numbers) };
    let short = sample.bytes.len() <= 600;
    let (least, most) = match sample.bytes.len() {
        0..=3000 => random.pick(&[(0, 1), (1, 1), (0, 3), (0, 20), (8, 8), (1, 300), (0, 3000)]),
        3001..=9000 => random.pick(&[(0, 100), (64, 64), (256, 256), (1, 300), (0, 9000)]),
        _ => random.pick(&[(0, 9000), (4096, 4096), (1000, 70_000), (0, 200_000)]),
    };
    let mut bytes = sample.bytes.as_slice();
    while !bytes.is_empty() {
        let (piece, rest) = bytes.split_at(random.within(least, most).min(bytes.len()));
        if random.once_in(6) {
            host.disturb(random, piece)?;
        }
        host.offer(piece)?;
        if short {
            host.check_as_one()?;
        }
        bytes = rest;
    }
    host.check_as_one()?;
    Ok(host)
}

/// Lines longer than a stream: some streams are filled to their last byte, and a new one goes on with the bytes that wait.
pub fn compare_long_lines(subject: &dyn FeedSubject, asked: Asked, first_seed: u64) -> Result<Tally, Difference> {
    let mut run = Run::new(subject, asked);
    for (seed, family) in (first_seed..).zip([Family::Clean, Family::Noisy, Family::Hostile]) {
        for dialect in DIALECTS {
            let sample = Sample::of(dialect, family, seed, MAX_BYTES + 150_000);
            let host = read_long_line(&run, &mut Random::new(seed), &sample);
            run.add(host.map_err(|what| sample.difference(&sample.bytes, what))?);
        }
    }
    Ok(run.tally)
}

fn read_long_line<'a>(run: &Run<'a>, random: &mut Random, sample: &Sample) -> Result<Host<'a>, String> {
    let mut host = run.host(sample.dialect, 65_551, 3000);
    let mut bytes = sample.bytes.as_slice();
    while !bytes.is_empty() {
        let free = (MAX_BYTES as u64).saturating_sub(host.stream.place.saturating_add(host.stream.waiting)) as usize;
        let wanted = random.within(1000, 9000);
        // Exactly to the stream's end, now and then.
        let count = if free < 9000 && random.once_in(2) { free } else { wanted }.min(bytes.len());
        let (piece, rest) = bytes.split_at(count);
        host.offer(piece)?;
        if host.start > 0 && random.once_in(3) {
            host.offer(b"")?;
        }
        bytes = rest;
    }
    host.check_as_one()?;
    if host.start == 0 {
        return Err("the line ended before a second stream".to_owned());
    }
    Ok(host)
}

/// At least so many single calls with made-up streams and carries: any numbers, sums at the limits and over those of 64 bits,
/// more waiting bytes than any frame has, carries and tables just large enough and one less.
pub fn compare_made_up(subject: &dyn FeedSubject, first_seed: u64, at_least: u64) -> Result<Tally, Difference> {
    let mut tally = Tally::default();
    for seed in first_seed.. {
        if tally.total >= at_least {
            break;
        }
        let lengths: &[usize] = if seed % 100 == 0 { &[80_000, 200_000] } else { &[20, 60, 300, 900] };
        let mut random = Random::new(!seed);
        let sample = if seed % 100 == 50 { longest(&mut random) } else { Sample::new(seed, lengths) };
        for _ in 0..4 {
            let fed = check_made_up(subject, &mut random, &sample);
            tally.count_fed(&fed.map_err(|what| sample.difference(&sample.bytes, what))?);
        }
    }
    Ok(tally)
}

/// A SiRad frame of the greatest size, 65,551 bytes, or all of it but some, behind a paper's example.
fn longest(random: &mut Random) -> Sample {
    let mut bytes = LISTING_EXAMPLE.to_vec();
    bytes.extend(b"!RFFFF");
    bytes.resize(bytes.len() + 8 + 0xFFFF, b'Z');
    bytes.extend(b"\r\n!E0000\r\n");
    bytes.truncate(bytes.len() - random.pick(&[0, 7, 8, 9, 9, 10, 20, 30]));
    Sample { dialect: SIRAD, origin: "a frame of the greatest size, without a seed".to_owned(), bytes }
}

fn check_made_up(subject: &dyn FeedSubject, random: &mut Random, sample: &Sample) -> Result<Fed, String> {
    let seam = match random.below(6) {
        0 => 0,
        1 => sample.bytes.len(),
        _ => random.within(0, sample.bytes.len()),
    };
    let (front, bytes) = sample.bytes.split_at(seam);
    let mut all = vec![0; ROW * (sample.bytes.len() / 8)];
    let reading = reading::read(sample.dialect, &sample.bytes, &mut all, false);
    let (needed, rest) = (ROW * reading.rows, sample.bytes.len() - reading.next);

    let room = random.pick(&[seam, rest.saturating_sub(1), rest, rest + 1, seam + 50, 65_551]).max(seam);
    let mut carry = front.to_vec();
    carry.resize_with(room.min(seam + 100), || random.byte());
    carry.resize(room, FILLER);
    let waiting = match random.below(12) {
        0 => room as u64 + 1,
        1 => u64::MAX,
        2 => random.pick(&[room as u64, 1 << 32, 1 << 63, seam as u64 | 1 << 32]),
        _ => seam as u64,
    };
    // The sums of what is handed over: the place where they come to the limit, and where they come to 0 in 64 bits.
    let count = bytes.len() as u64;
    let limit = (MAX_BYTES as u64).wrapping_sub(waiting).wrapping_sub(count);
    let around = 0u64.wrapping_sub(waiting).wrapping_sub(count);
    let place = match random.below(12) {
        0 => limit,
        1 => limit.wrapping_add(1),
        2 => limit.wrapping_sub(1),
        3 => limit.wrapping_add(random.pick(&[waiting, count, waiting.wrapping_add(count)])),
        4 => around.wrapping_add(random.below(3) as u64),
        5 => random.pick(&[u64::MAX, u64::MAX - 1, 1 << 32, 1 << 63, around.wrapping_add(MAX_BYTES as u64)]),
        6 => 0,
        _ => random.below(MAX_BYTES - sample.bytes.len()) as u64,
    };
    let dialect =
        if random.once_in(25) { random.pick(&[3, 4, 16, 17, 256, 1 << 31, u32::MAX]) } else { sample.dialect };
    let numbers =
        random.pick(&[0, 2, needed.saturating_sub(1), needed, needed, needed + 1, needed + 2, needed + 3, needed + 30]);
    let call = Call { dialect, stream: Stream { place, waiting }, carry: &carry, bytes, numbers };
    call.check(subject, Asked::Calls).map(|left| left.fed)
}

/// A capture cut at these places, with a carry and a table of these sizes to begin with; then single calls with made-up
/// streams at each cut: what a fuzzer calls.
pub fn check_feeding(
    subject: &dyn FeedSubject,
    dialect: u32,
    capture: &[u8],
    cuts: &[usize],
    room: usize,
    numbers: usize,
) -> Result<(), String> {
    let mut cuts: Vec<usize> = cuts.iter().map(|&cut| cut.min(capture.len())).collect();
    cuts.sort_unstable();
    let mut host = Host::new(subject, Asked::Calls, dialect, room, numbers);
    for piece in pieces(capture, &cuts) {
        host.offer(piece)?;
        host.check_as_one()?;
    }
    for cut in cuts {
        let (carry, bytes) = capture.split_at(cut);
        for waiting in [0, cut / 2, cut, cut + 1] {
            let limit = (MAX_BYTES - waiting.min(cut) - bytes.len()) as u64;
            for place in [0, limit, limit + 1, 1 << 32, u64::MAX - cut as u64, 0u64.wrapping_sub(waiting as u64)] {
                let stream = Stream { place, waiting: waiting as u64 };
                Call { dialect, stream, carry, bytes, numbers }.check(subject, Asked::Calls)?;
            }
        }
    }
    Ok(())
}
