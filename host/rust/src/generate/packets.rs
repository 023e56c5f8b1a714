//! What packets of both packet dialects are made of.

use super::random::Random;

/// The eight bytes that start each packet.
pub(super) const MAGIC: [u8; 8] = [2, 1, 4, 3, 6, 5, 8, 7];

/// A record before it is put in place: its type, the length that it says, its payload.
pub(super) type Record = (u32, u32, Vec<u8>);

/// The magic, the eight header fields behind it, the records.
pub(super) fn joined(header: [u32; 8], records: &[Record]) -> Vec<u8> {
    let mut bytes = MAGIC.to_vec();
    for field in header {
        bytes.extend_from_slice(&field.to_le_bytes());
    }
    for (record_type, length, payload) in records {
        bytes.extend_from_slice(&record_type.to_le_bytes());
        bytes.extend_from_slice(&length.to_le_bytes());
        bytes.extend_from_slice(payload);
    }
    bytes
}

/// The end of the last record.
pub(super) fn end_of(records: &[Record]) -> usize {
    40 + records.iter().map(|(_, _, payload)| 8 + payload.len()).sum::<usize>()
}

/// False starts of four sorts, `small` being numbers that are legal in some field.
pub(super) fn false_start(random: &mut Random, sort: usize, small: &[u32]) -> Vec<u8> {
    match sort {
        // The magic's first bytes everywhere.
        1 => MAGIC[..random.within(1, 7)].repeat(random.within(1, 6)),
        // Magics everywhere.
        2 => MAGIC.repeat(random.within(1, 6)),
        // A magic and then anything.
        3 => {
            let count = random.below(60);
            MAGIC.into_iter().chain((0..count).map(|_| random.byte())).collect()
        }
        // A magic and then small numbers.
        _ => {
            let fields: Vec<u32> = (0..random.within(1, 14)).map(|_| random.pick(small)).collect();
            MAGIC.into_iter().chain(fields.iter().flat_map(|field| field.to_le_bytes())).collect()
        }
    }
}
