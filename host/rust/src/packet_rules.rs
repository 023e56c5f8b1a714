//! What the packets of both packet dialects share: the header's places, the checks in byte order, the walk over the records
//! (paper 01, "The three wires" and "Judging a place"; paper 02 (i): "the same magic and offsets"). What sets a dialect
//! apart is a value of [`Rules`].
//!
//! "Numbers are least significant byte first." The magic is judged byte by byte; "a four-byte field is judged when its
//! fourth byte is there, and until then it waits".

use crate::judgement::{
    Judgement, ILLEGAL_PAYLOAD_LENGTH, ILLEGAL_RECORD_COUNT, ILLEGAL_TOTAL_LENGTH, REPEATED_TYPE, TYPE_CANNOT_FIT,
    WRONG_FIXED_FIELD, WRONG_MAGIC,
};
use crate::{mmwave, vital_signs};

/// The eight bytes that start each packet.
pub const MAGIC: [u8; 8] = [2, 1, 4, 3, 6, 5, 8, 7];
/// Where the version stands.
pub const VERSION: usize = 8;
/// Where the total length L stands.
pub const TOTAL_LENGTH: usize = 12;
/// Where the platform stands.
pub const PLATFORM: usize = 16;
/// Where the frame number stands.
pub const FRAME_NUMBER: usize = 20;
/// Where the time in CPU cycles stands.
pub const TIME: usize = 24;
/// Where the object count N stands; in a vital-signs packet the fixed number 99.
pub const OBJECT_COUNT: usize = 28;
/// Where the record count K stands.
pub const RECORD_COUNT: usize = 32;
/// Where the subframe number stands.
pub const SUBFRAME: usize = 36;
/// The header's bytes: its fields add up to 40, and "40 decides" over 004's "44 Bytes".
pub const HEADER_SIZE: usize = 40;
/// A record's bytes in front of its payload: type (4) and payload length (4).
pub const RECORD_HEADER: u64 = 8;
/// The greatest L.
pub const MAX_TOTAL: u64 = 32_768;
/// The greatest K.
pub const MAX_RECORDS: u64 = 32;

/// What sets a packet dialect apart.
#[derive(Clone, Copy, Debug)]
pub struct Rules {
    /// The kind that its packets are.
    pub kind: u32,
    /// Which L are legal.
    pub is_legal_total: fn(u64) -> bool,
    /// The L of a packet without records; no other has none.
    pub empty_total: u64,
    /// The greatest K.
    pub most_records: u64,
    /// The fields that hold one number, in byte order.
    pub fixed: &'static [(usize, u64)],
    /// L is the smallest multiple of this not below the end of the last record.
    pub block: u64,
    /// Whether no record of a type may stand behind records of these types.
    pub is_excluded: fn(u32, &[u32]) -> bool,
    /// The legal payload lengths of a type, given the object count.
    pub lengths: fn(u32, u64) -> Lengths,
}

/// The rules by which packets of this kind are read; none for any other kind.
pub fn rules_of(kind: u32) -> Option<&'static Rules> {
    [&mmwave::RULES, &vital_signs::RULES].into_iter().find(|rules| rules.kind == kind)
}

/// The payload lengths that are legal for a record's type.
#[derive(Clone, Copy, Debug, PartialEq, Eq)]
pub enum Lengths {
    /// None at all.
    None,
    /// This one alone.
    Only(u64),
    /// All multiples of this, 0 among them.
    MultiplesOf(u64),
}

impl Lengths {
    /// Whether `length` is among them.
    pub fn allow(self, length: u64) -> bool {
        match self {
            Lengths::None => false,
            Lengths::Only(only) => length == only,
            Lengths::MultiplesOf(step) => length.is_multiple_of(step),
        }
    }

    /// The greatest of them that is at most `room`.
    pub fn greatest_within(self, room: u64) -> Option<u64> {
        match self {
            Lengths::None => None,
            Lengths::Only(only) => (only <= room).then_some(only),
            Lengths::MultiplesOf(step) => Some(room - room % step),
        }
    }
}

impl Rules {
    /// Judges the packet at the front of `bytes`.
    pub fn judge(&self, bytes: &[u8]) -> Judgement {
        match self.packet(bytes) {
            Ok(length) => Judgement::Whole { kind: self.kind, length },
            Err(stopped) => stopped,
        }
    }

    /// The checks in byte order; a check that can't go on answers with the judgement.
    fn packet(&self, bytes: &[u8]) -> Result<usize, Judgement> {
        magic(bytes)?;
        field(bytes, VERSION)?;
        let total = field(bytes, TOTAL_LENGTH)?;
        check((self.is_legal_total)(total), ILLEGAL_TOTAL_LENGTH)?;
        field(bytes, PLATFORM)?;
        field(bytes, FRAME_NUMBER)?;
        field(bytes, TIME)?;
        let objects = self.fixed_or_free(bytes, OBJECT_COUNT)?;
        let records = field(bytes, RECORD_COUNT)?;
        check(self.is_legal_count(records, total), ILLEGAL_RECORD_COUNT)?;
        self.fixed_or_free(bytes, SUBFRAME)?;
        let mut place = HEADER_SIZE as u64;
        let mut types_before = Vec::new();
        for behind in (0..records).rev() {
            let record_type = field(bytes, place as usize)? as u32;
            check(!(self.is_excluded)(record_type, &types_before), REPEATED_TYPE)?;
            types_before.push(record_type);
            let legal = (self.lengths)(record_type, objects);
            check(self.some_length_fits(legal, place, behind, total), TYPE_CANNOT_FIT)?;
            let length = field(bytes, place as usize + 4)?;
            let end = place + RECORD_HEADER + length;
            check(legal.allow(length) && self.can_end(end, behind, total), ILLEGAL_PAYLOAD_LENGTH)?;
            place = end;
        }
        // Payloads and padding are free, but they have to be there.
        if (bytes.len() as u64) < total {
            return Err(Judgement::Waiting);
        }
        Ok(total as usize)
    }

    /// The field at `place`, which may hold one number only.
    fn fixed_or_free(&self, bytes: &[u8], place: usize) -> Result<u64, Judgement> {
        let number = field(bytes, place)?;
        check(self.may_hold(place, number), WRONG_FIXED_FIELD)?;
        Ok(number)
    }

    /// Whether the field at `place` may hold `number`: it is free, or that is its number.
    pub fn may_hold(&self, place: usize, number: u64) -> bool {
        self.fixed.iter().all(|&(fixed, only)| fixed != place || number == only)
    }

    /// Reason 22's rule, the other way round: K is at most 32, the K record headers have room, and without records L is
    /// the one that has none.
    pub fn is_legal_count(&self, records: u64, total: u64) -> bool {
        records <= self.most_records
            && RECORD_HEADER * records <= total - HEADER_SIZE as u64
            && (records > 0 || total == self.empty_total)
    }

    /// Whether the records can end so that L fits, if one with a legal length ends at `end` and `behind` more follow. Those
    /// fill what is left: in mmWave a free type does by bytes, whatever types stand before it, in vital signs type 2 by fours,
    /// and there L and all ends are multiples of 4.
    pub fn can_end(&self, end: u64, behind: u64, total: u64) -> bool {
        if behind == 0 {
            end <= total && total < end + self.block
        } else {
            end + RECORD_HEADER * behind <= total
        }
    }

    /// Whether some legal payload length of a record at `place` lets the records end so that L fits. The greatest that
    /// leaves room for the record headers behind it does so if any does.
    pub fn some_length_fits(&self, legal: Lengths, place: u64, behind: u64, total: u64) -> bool {
        let Some(room) = total.checked_sub(place + RECORD_HEADER * (1 + behind)) else {
            return false;
        };
        match legal.greatest_within(room) {
            Some(length) => self.can_end(place + RECORD_HEADER + length, behind, total),
            None => false,
        }
    }
}

fn check(holds: bool, reason: u32) -> Result<(), Judgement> {
    if holds {
        Ok(())
    } else {
        Err(Judgement::Bad { reason })
    }
}

fn magic(bytes: &[u8]) -> Result<(), Judgement> {
    for (place, expected) in MAGIC.iter().enumerate() {
        let byte = bytes.get(place).ok_or(Judgement::Waiting)?;
        check(byte == expected, WRONG_MAGIC)?;
    }
    Ok(())
}

/// The four-byte field at `place`; waits unless all its bytes are there.
fn field(bytes: &[u8], place: usize) -> Result<u64, Judgement> {
    match bytes.get(place..place + 4) {
        Some(field) => Ok(u64::from(number(field))),
        None => Err(Judgement::Waiting),
    }
}

/// A number, least significant byte first.
pub fn number(bytes: &[u8]) -> u32 {
    bytes.iter().rev().fold(0, |value, &byte| value << 8 | u32::from(byte))
}

#[cfg(test)]
mod tests {
    use super::*;

    #[test]
    fn kinds_16_and_17_have_rules() {
        let with_rules: Vec<u32> = (0..70_000).filter(|&kind| rules_of(kind).is_some()).collect();
        assert_eq!(with_rules, [16, 17]);
        assert!([1 << 31, u32::MAX].iter().all(|&kind| rules_of(kind).is_none()));
        assert_eq!([16, 17].map(|kind| rules_of(kind).map(|rules| rules.kind)), [Some(16), Some(17)]);
    }

    #[test]
    fn numbers_have_their_least_significant_byte_first() {
        assert_eq!(number(&[4, 3, 2, 1]), 0x0102_0304);
    }
}
