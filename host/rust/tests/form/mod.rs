//! The papers' definitions taken at their word, as a second reader of short bytes (paper 01, "Judging a place"; paper 02 (i),
//! (ii) and (vii)).
//!
//! "A frame of a dialect is a sequence of bytes that, from its first to its last, has the form which the rules on the
//! wires give. .. It stands at a place if the bytes from there begin with it. Further bytes complete a frame at a place if
//! none stood there before and one does once they are put behind the bytes so far." Here [`Form::is_frame`] knows whole
//! sequences only, and everything else follows from it: what stands, what can be completed (with the bytes that do it),
//! and which byte or field is the first with which nothing can be completed any more.

use std::collections::HashMap;

use radar_reference::judgement::Judgement;

const MAGIC: [u8; 8] = [2, 1, 4, 3, 6, 5, 8, 7];

/// A search for a record.
#[derive(Clone, PartialEq, Eq, Hash)]
struct Search {
    place: usize,
    /// The records behind it.
    behind: u32,
    total: usize,
    objects: u32,
    /// The types of the records before it, but for those that may repeat.
    before: Vec<u32>,
}

/// The form of a dialect, with what its searches have found so far: a type and a length, or nothing.
pub struct Form {
    dialect: u32,
    fits: HashMap<Search, Option<(u32, usize)>>,
}

impl Form {
    pub fn of(dialect: u32) -> Form {
        Form { dialect, fits: HashMap::new() }
    }

    /// The kind of the frame that all of `bytes` are.
    pub fn is_frame(&self, bytes: &[u8]) -> Option<u32> {
        match self.dialect {
            0 => sirad_kind(bytes),
            1 => is_packet(bytes).then_some(16),
            _ => is_vital_signs_packet(bytes).then_some(17),
        }
    }

    /// The frame that stands at the front: its kind and length.
    pub fn stands(&self, bytes: &[u8]) -> Option<(u32, usize)> {
        (0..=bytes.len()).find_map(|length| Some((self.is_frame(&bytes[..length])?, length)))
    }

    /// A frame that begins with `bytes` and is longer, if there is one.
    pub fn completed(&mut self, bytes: &[u8]) -> Option<Vec<u8>> {
        let frame = if self.dialect == 0 { sirad_completed(bytes)? } else { self.packet_completed(bytes)? };
        assert!(frame.starts_with(bytes) && frame.len() > bytes.len());
        assert!(self.is_frame(&frame).is_some(), "{frame:?} is no frame");
        Some(frame)
    }

    /// Whether there is such a frame.
    fn can_be_completed(&mut self, bytes: &[u8]) -> bool {
        if self.dialect == 0 {
            sirad_to_be(bytes).is_some()
        } else {
            self.packet_completed(bytes).is_some()
        }
    }

    /// The judgement that the definitions give.
    pub fn judgement(&mut self, bytes: &[u8]) -> Judgement {
        if let Some((kind, length)) = self.stands(bytes) {
            return Judgement::Whole { kind, length };
        }
        if self.inside_field(bytes) || self.can_be_completed(bytes) {
            return Judgement::Waiting;
        }
        Judgement::Bad { reason: self.reason(bytes) }
    }

    /// The reason for bytes of which nothing can become a frame: what is at the end of the shortest front of which
    /// nothing can.
    fn reason(&mut self, bytes: &[u8]) -> u32 {
        // A front of which nothing can become a frame has no longer one of which something can: halve the range.
        let (mut hopeful, mut hopeless) = (0, bytes.len());
        while hopeless - hopeful > 1 {
            let middle = hopeful.midpoint(hopeless);
            let front = &bytes[..middle];
            if self.stands(front).is_some() || self.inside_field(front) || self.can_be_completed(front) {
                hopeful = middle;
            } else {
                hopeless = middle;
            }
        }
        let end = hopeless;
        if self.dialect == 0 {
            self.sirad_reason(&bytes[..end])
        } else {
            match end {
                ..=8 => 20,
                16 => 21,
                32 | 40 if self.dialect == 2 => 26,
                36 => 22,
                _ => match self.record_field(&bytes[..end]) {
                    // "25, seen at the type field, before 23."
                    Some((_, true)) if !self.go_together(&types(&bytes[..end])) => 25,
                    Some((_, true)) => 23,
                    Some((_, false)) => 24,
                    None => panic!("{end} is not the end of a checked field"),
                },
            }
        }
    }

    /// What the last byte should have been, by a frame that begins with the bytes before it.
    fn sirad_reason(&self, bytes: &[u8]) -> u32 {
        let place = bytes.len() - 1;
        let (identifier, length) = sirad_to_be(&bytes[..place]).expect("the byte is the first that fails");
        match class(bytes, identifier, length, place) {
            Class::Only(b'!') => 10,
            Class::Identifier => 11,
            Class::Hex | Class::BlockStart => 12,
            Class::Character => 13,
            Class::Only(0) => 17,
            Class::Only(_) => 14,
        }
    }

    /// "Bytes end inside such a field if every check before it holds and one to three of its bytes are there."
    pub fn inside_field(&mut self, bytes: &[u8]) -> bool {
        if self.dialect == 0 || bytes.len() <= 8 {
            return false;
        }
        let start = if bytes.len() < 40 {
            bytes.len() / 4 * 4
        } else {
            match self.record_field(bytes) {
                Some((start, _)) => start,
                None => return false,
            }
        };
        let there = bytes.len() - start;
        (1..=3).contains(&there) && self.can_be_completed(&bytes[..start])
    }

    /// The record's field that the bytes end in or right behind: where it starts, and whether it is a type.
    fn record_field(&self, bytes: &[u8]) -> Option<(usize, bool)> {
        let mut place = 40;
        for _ in 0..field(bytes, 32)? {
            for (start, is_type) in [(place, true), (place + 4, false)] {
                if (start + 1..=start + 4).contains(&bytes.len()) {
                    return Some((start, is_type));
                }
            }
            place = place.checked_add(8)?.checked_add(field(bytes, place + 4)? as usize)?;
        }
        None
    }

    /// Puts numbers of our choice in all fields that are not there yet. The choice is a search of all of them wherever
    /// it matters.
    fn packet_completed(&mut self, bytes: &[u8]) -> Option<Vec<u8>> {
        let known = bytes.len().min(8);
        if bytes[..known] != MAGIC[..known] {
            return None;
        }
        let mut frame = MAGIC.to_vec();
        if bytes.len() > 8 {
            frame = bytes[..bytes.len().min(40)].to_vec();
        }
        let step = self.step();
        let (least, greatest) = match field(&frame, 12) {
            Some(total) => (total as usize, total as usize),
            None => (if self.dialect == 1 { 64 } else { 40 }, 32_768),
        };
        let objects: Vec<u32> = choices(&frame, 28, if self.dialect == 1 { &[0, 1, 2, 3] } else { &[99] });
        let counts: Vec<u32> = (0..=32).filter(|&count| agrees(&frame, 32, count)).collect();
        for total in (least..=greatest).step_by(step).filter(|&total| agrees(&frame, 12, total as u32)) {
            for &count in &counts {
                for &objects in &objects {
                    let mut header = frame.clone();
                    header.resize(40, 0);
                    put(&mut header, 12, total as u32);
                    put(&mut header, 28, objects);
                    put(&mut header, 32, count);
                    if let Some(frame) = self.records_completed(&header, bytes, total, count, objects) {
                        return Some(frame);
                    }
                }
            }
        }
        None
    }

    /// The packet with this header and the records that are there, and such records behind them that it is a frame.
    fn records_completed(
        &mut self,
        header: &[u8],
        bytes: &[u8],
        total: usize,
        count: u32,
        objects: u32,
    ) -> Option<Vec<u8>> {
        if bytes.len() >= total || !total.is_multiple_of(self.step()) || total > 32_768 {
            // Nothing of this length is a frame, or none that is longer than the bytes.
            return None;
        }
        let mut frame = header.to_vec();
        frame.extend_from_slice(bytes.get(40..).unwrap_or_default());
        let mut search = Search { place: 40, behind: count, total, objects, before: Vec::new() };
        for behind in (0..count).rev() {
            search.behind = behind;
            let place = search.place;
            let (record_type, length) = match (field(&frame, place), field(&frame, place + 4)) {
                (Some(record_type), Some(length)) => (record_type, length as usize),
                (Some(record_type), None) => {
                    let length = self.length_that_fits(&frame, record_type, &search)?;
                    (record_type, length)
                }
                (None, _) if frame.len() <= place => self.record_that_fits(&search)?,
                // A type that is there in part: one of the named ones, or one behind them.
                (None, _) => (0..=10).chain([0xFF00_0000 | partial(&frame, place)]).find_map(|record_type| {
                    let length = self.length_that_fits(&frame, record_type, &search)?;
                    agrees(&frame, place, record_type).then_some((record_type, length))
                })?,
            };
            if !self.is_legal(record_type, length as u64, objects) {
                return None;
            }
            let end = place + 8 + length;
            if end > total {
                return None;
            }
            for (start, number) in [(place, record_type), (place + 4, length as u32)] {
                if frame.len() < start + 4 {
                    assert!(agrees(&frame, start, number));
                    frame.resize(start, 0);
                    frame.extend_from_slice(&number.to_le_bytes());
                }
            }
            if frame.len() < end {
                frame.resize(end, 0);
            }
            search = self.behind(&search, record_type, end);
        }
        frame.resize(total, 0);
        self.is_frame(&frame).is_some().then_some(frame)
    }

    /// All lengths of the dialect's packets are multiples of this.
    fn step(&self) -> usize {
        if self.dialect == 1 {
            32
        } else {
            4
        }
    }

    fn is_legal(&self, record_type: u32, length: u64, objects: u32) -> bool {
        if self.dialect == 1 {
            is_legal(record_type, length, objects)
        } else {
            is_legal_vital_sign(record_type, length)
        }
    }

    /// Whether records of these types may be in one packet.
    fn go_together(&self, types: &[u32]) -> bool {
        self.dialect != 1 || each_kind_once(types)
    }

    /// The search for the record behind one of this type, which ends at `end`.
    fn behind(&self, search: &Search, record_type: u32, end: usize) -> Search {
        let mut before = search.before.clone();
        before.extend((self.dialect == 1 && (1..=9).contains(&record_type)).then_some(record_type));
        Search { place: end, behind: search.behind.saturating_sub(1), before, ..*search }
    }

    /// Any type and length of a record with which the records can end so that the total fits: tries all.
    fn record_that_fits(&mut self, search: &Search) -> Option<(u32, usize)> {
        if let Some(&found) = self.fits.get(search) {
            return found;
        }
        let found =
            (0..=10).find_map(|record_type| Some((record_type, self.length_that_fits(&[], record_type, search)?)));
        self.fits.insert(search.clone(), found);
        found
    }

    /// A length of this record with which the records can end so that the total fits: tries all that agree with the bytes
    /// of it that are there.
    fn length_that_fits(&mut self, there: &[u8], record_type: u32, search: &Search) -> Option<usize> {
        let Search { place, behind, total, objects, .. } = *search;
        if !self.go_together(&[&search.before[..], &[record_type]].concat()) {
            return None;
        }
        // The lengths that leave no room for the record headers behind are left out: nothing fits with them.
        let most = total.checked_sub(place + 8 * (behind as usize + 1))?;
        (0..=most).rev().find(|&length| {
            let end = place + 8 + length;
            self.is_legal(record_type, length as u64, objects)
                && agrees(there, place + 4, length as u32)
                && if behind == 0 {
                    (if self.dialect == 1 { end.next_multiple_of(32) } else { end }) == total
                } else {
                    self.record_that_fits(&self.behind(search, record_type, end)).is_some()
                }
        })
    }
}

// SiRad by the classes of its bytes

#[derive(Clone, Copy, Debug, PartialEq)]
enum Class {
    Only(u8),
    Identifier,
    Hex,
    Character,
    /// A hex digit, or the byte 0 that commits the rest of its block.
    BlockStart,
}

impl Class {
    fn holds(self, byte: u8) -> bool {
        match self {
            Class::Only(only) => byte == only,
            Class::Identifier => b"RPCTUE".contains(&byte),
            Class::Hex => b"0123456789ABCDEF".contains(&byte),
            Class::Character => byte > 33 && byte < 255,
            Class::BlockStart => byte == 0 || Class::Hex.holds(byte),
        }
    }
}

/// The class of the byte at a place of a frame with this identifier and total length; in a block of a T frame by the bytes
/// before it.
fn class(bytes: &[u8], identifier: u8, length: usize, place: usize) -> Class {
    let body: &[u8] = match identifier {
        b'R' | b'P' | b'C' => b"xxxx",
        b'T' if place < 4 => b"xc",
        b'T' => return block_class(bytes, (place - 4) % 14, length, place),
        b'U' => b"xcxxxxxxxxxxxxxxxxxxxx",
        _ => b"xxxx",
    };
    match place {
        0 => Class::Only(b'!'),
        1 => Class::Identifier,
        _ if place == length - 2 => Class::Only(13),
        _ if place == length - 1 => Class::Only(10),
        _ if body.get(place - 2) == Some(&b'x') => Class::Hex,
        _ => Class::Character,
    }
}

fn block_class(bytes: &[u8], within: usize, length: usize, place: usize) -> Class {
    match length - place {
        2 => Class::Only(13),
        1 => Class::Only(10),
        _ if within == 0 => Class::BlockStart,
        _ if bytes[place - within] == 0 => Class::Only(0),
        _ if b"xxxxxcxxxxcccc"[within] == b'x' => Class::Hex,
        _ => Class::Character,
    }
}

/// "Total bytes": whether a frame with this identifier has this length.
fn has_length(identifier: u8, length: usize) -> bool {
    match identifier {
        b'R' | b'P' | b'C' => (16..=16 + 65_535).contains(&length),
        b'T' => length == 230,
        b'U' => length == 26,
        b'E' => length == 8,
        _ => false,
    }
}

fn sirad_kind(bytes: &[u8]) -> Option<u32> {
    let &identifier = bytes.get(1)?;
    if !has_length(identifier, bytes.len()) {
        return None;
    }
    if b"RPC".contains(&identifier) && bytes[2..6] != *format!("{:04X}", bytes.len() - 16).as_bytes() {
        return None;
    }
    let holds = bytes.iter().enumerate().all(|(place, &byte)| class(bytes, identifier, bytes.len(), place).holds(byte));
    let kind = 1 + b"RPCTUE".iter().position(|&known| known == identifier)? as u32;
    holds.then_some(kind)
}

/// The identifier and the length of a frame that begins with `bytes` and is longer. Tries each identifier, and for the
/// digits of a size that are not there zeros.
fn sirad_to_be(bytes: &[u8]) -> Option<(u8, usize)> {
    b"RPCTUE".iter().find_map(|&identifier| {
        let length = match identifier {
            b'T' => 230,
            b'U' => 26,
            b'E' => 8,
            _ => {
                let mut digits = bytes.get(2..bytes.len().min(6)).unwrap_or_default().to_vec();
                digits.resize(4, b'0');
                16 + usize::from_str_radix(&String::from_utf8(digits).ok()?, 16).ok()?
            }
        };
        let holds = bytes.len() < length
            && bytes.get(1).is_none_or(|&byte| byte == identifier)
            && bytes.iter().enumerate().all(|(place, &byte)| class(bytes, identifier, length, place).holds(byte));
        holds.then_some((identifier, length))
    })
}

fn sirad_completed(bytes: &[u8]) -> Option<Vec<u8>> {
    let (identifier, length) = sirad_to_be(bytes)?;
    let mut frame = bytes.to_vec();
    for place in bytes.len()..length {
        frame.push(match class(&frame, identifier, length, place) {
            Class::Only(only) => only,
            Class::Identifier => identifier,
            // Empty blocks of both forms by turns.
            Class::BlockStart => [0, b'0'][(place / 14 + bytes.len()) % 2],
            Class::Hex => b'0',
            Class::Character => 34 + (place % 221) as u8,
        });
    }
    Some(frame)
}

// Packets as a whole

fn field(bytes: &[u8], place: usize) -> Option<u32> {
    let field = bytes.get(place..place.checked_add(4)?)?;
    Some(u32::from_le_bytes(field.try_into().unwrap()))
}

fn put(bytes: &mut [u8], place: usize, number: u32) {
    bytes[place..place + 4].copy_from_slice(&number.to_le_bytes());
}

/// Whether the bytes of the field that are there are those of `number`.
fn agrees(bytes: &[u8], place: usize, number: u32) -> bool {
    let there = bytes.get(place..bytes.len().min(place + 4)).unwrap_or_default();
    number.to_le_bytes().starts_with(there)
}

/// The number of the bytes of a field that are there.
fn partial(bytes: &[u8], place: usize) -> u32 {
    bytes[place..].iter().rev().fold(0, |number, &byte| number << 8 | u32::from(byte))
}

/// The field's number if it is there, else those of `free` that agree with what is.
fn choices(bytes: &[u8], place: usize, free: &[u32]) -> Vec<u32> {
    match field(bytes, place) {
        Some(number) => vec![number],
        None => free.iter().copied().filter(|&number| agrees(bytes, place, number)).collect(),
    }
}

fn is_legal(record_type: u32, length: u64, objects: u32) -> bool {
    let objects = u64::from(objects);
    match record_type {
        1 => objects != 0 && length == 16 * objects,
        7 => objects != 0 && length == 4 * objects,
        2 | 3 | 5 => length.is_multiple_of(2),
        4 | 8 => length.is_multiple_of(4),
        6 => length == 24,
        9 => length == 28,
        _ => true,
    }
}

/// The types of the records, as far as these are there.
fn types(bytes: &[u8]) -> Vec<u32> {
    let (mut types, mut place) = (Vec::new(), 40);
    while let Some(record_type) = field(bytes, place).filter(|_| types.len() < field(bytes, 32).unwrap_or(0) as usize) {
        types.push(record_type);
        let Some(length) = field(bytes, place + 4) else { break };
        place += 8 + length as usize;
    }
    types
}

/// "Each kind of record once": no known type (1 to 9) twice, and not both 4 and 8.
fn each_kind_once(types: &[u32]) -> bool {
    let how_often = |wanted: u32| types.iter().filter(|&&record_type| record_type == wanted).count();
    (1..=9).all(|known| how_often(known) <= 1) && how_often(4) + how_often(8) <= 1
}

/// All rules on a whole packet, for a sequence of bytes that has an end.
fn is_packet(bytes: &[u8]) -> bool {
    let walk = || -> Option<usize> {
        let (objects, count) = (field(bytes, 28)?, field(bytes, 32)?);
        let mut end = 40;
        if count > 32 {
            return None;
        }
        for _ in 0..count {
            let (record_type, length) = (field(bytes, end)?, field(bytes, end + 4)?);
            if !is_legal(record_type, u64::from(length), objects) {
                return None;
            }
            end += 8 + length as usize;
        }
        Some(end)
    };
    bytes.len().is_multiple_of(32)
        && (64..=32_768).contains(&bytes.len())
        && bytes.starts_with(&MAGIC)
        && field(bytes, 12) == Some(bytes.len() as u32)
        && walk().is_some_and(|end| end.next_multiple_of(32) == bytes.len())
        && each_kind_once(&types(bytes))
}

fn is_legal_vital_sign(record_type: u32, length: u64) -> bool {
    match record_type {
        1 => length == 24,
        2 => length.is_multiple_of(4),
        3 => length.is_multiple_of(16),
        4 => length == 20,
        _ => false,
    }
}

/// All rules of paper 02 (i) on a whole packet: "L is exactly the end of the last record, at least 40, at most 32,768". What
/// the paper infers of L and K is not asked.
fn is_vital_signs_packet(bytes: &[u8]) -> bool {
    let walk = || -> Option<usize> {
        let mut rest = bytes.get(40..)?;
        for _ in 0..field(bytes, 32).filter(|&count| count <= 32)? {
            let (record_type, length) = (field(rest, 0)?, field(rest, 4)?);
            rest = rest.get(8..)?.get(length as usize..)?;
            if !is_legal_vital_sign(record_type, u64::from(length)) {
                return None;
            }
        }
        Some(bytes.len() - rest.len())
    };
    bytes.len() <= 32_768
        && bytes.starts_with(&MAGIC)
        && field(bytes, 12) == Some(bytes.len() as u32)
        && field(bytes, 28) == Some(99)
        && field(bytes, 36) == Some(0)
        && walk() == Some(bytes.len())
}
