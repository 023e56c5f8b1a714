//! mmWave packets, true ones and near misses.

use super::floats::float_bits;
use super::packets::{end_of, false_start, joined, Record, MAGIC};
use super::random::Random;

/// A packet's parts before they are put together; each can be given a wrong value.
#[derive(Clone, Debug)]
struct Plan {
    total: u32,
    objects: u32,
    count: u32,
    records: Vec<Record>,
}

impl Plan {
    /// Records of any types, each known one once, with legal payload lengths that take up at most `room` bytes with the header.
    fn new(random: &mut Random, room: usize) -> Plan {
        let objects = match random.below(6) {
            0 => 0,
            1 => random.within(1, 40),
            _ => random.within(1, 5),
        };
        let wanted = match random.below(12) {
            0 => 0,
            1 => random.within(1, 32),
            2 => 32,
            _ => random.within(1, 5),
        };
        let mut records: Vec<Record> = Vec::new();
        let mut end = 40;
        for _ in 0..wanted {
            let mut record_type = record_type(random);
            if records.iter().any(|(other, ..)| rivals(record_type).contains(other)) {
                record_type = free_type(random);
            }
            let Some(length) = record_length(random, record_type, objects, room.saturating_sub(end + 8)) else {
                continue;
            };
            if end + 8 + length > room {
                break;
            }
            records.push((record_type, length as u32, payload(random, record_type, length)));
            end += 8 + length;
        }
        Plan::around(objects as u32, records)
    }

    /// Puts a record of this type in, anywhere.
    fn add(&mut self, random: &mut Random, record_type: u32) {
        let length = record_length(random, record_type, self.objects as usize, 64).unwrap_or(0);
        let index = random.within(0, self.records.len());
        self.records.insert(index, (record_type, length as u32, payload(random, record_type, length)));
        *self = Plan::around(self.objects, std::mem::take(&mut self.records));
    }

    /// The plan of a packet with these records and the counts that belong to them.
    fn around(objects: u32, records: Vec<Record>) -> Plan {
        let total = end_of(&records).next_multiple_of(32) as u32;
        Plan { total, objects, count: records.len() as u32, records }
    }

    /// The bytes, padded up to the next multiple of 32.
    fn bytes(&self, random: &mut Random) -> Vec<u8> {
        let (version, platform, frame, time) = (random.word(), 0x000A_6843, random.word() & 0xFFFF, random.word());
        let subframe = random.below(4) as u32;
        let header = [version, self.total, platform, frame, time, self.objects, self.count, subframe];
        let mut bytes = joined(header, &self.records);
        let padded = bytes.len().next_multiple_of(32);
        let filler = random.pick(&[0, 0x0F, 0xFF, 2]);
        bytes.resize(padded, filler);
        bytes
    }
}

/// A whole packet that fits in `room` bytes.
pub fn packet(random: &mut Random, room: usize) -> Option<Vec<u8>> {
    if room < 64 {
        return None;
    }
    let wanted = match random.below(16) {
        0 => 64,
        1 => 96,
        2 => 4096,
        3 if random.once_in(4) => 32_768,
        _ => random.pick(&[128, 192, 256, 512, 1024]),
    };
    let room = wanted.min(room) / 32 * 32;
    let mut plan = Plan::new(random, room);
    if random.once_in(3) {
        end_at_an_edge(random, &mut plan, room);
    }
    Some(plan.bytes(random))
}

/// A packet with a record of type 1 that holds these coordinates in metres and Doppler values, and its side info.
pub fn packet_of_points(random: &mut Random, points: &[[f32; 4]]) -> Vec<u8> {
    let side: Vec<u8> = (0..4 * points.len()).map(|_| random.byte()).collect();
    let mut records = vec![(1, bytes_of_points(points)), (7, side)];
    if points.is_empty() {
        records.clear();
    }
    records.push((6, (0..24).map(|_| random.byte()).collect()));
    packet_of(random, points.len(), records)
}

/// The payload of a record of type 1.
pub fn bytes_of_points(points: &[[f32; 4]]) -> Vec<u8> {
    points.iter().flatten().flat_map(|value| value.to_bits().to_le_bytes()).collect()
}

/// A packet with these types and payloads.
pub fn packet_of(random: &mut Random, objects: usize, records: Vec<(u32, Vec<u8>)>) -> Vec<u8> {
    let records = records.into_iter().map(|(record_type, payload)| (record_type, payload.len() as u32, payload));
    Plan::around(objects as u32, records.collect()).bytes(random)
}

/// These bytes in a packet that is bad at its only record's length: 32 bytes more are said than it fills.
pub fn broken_around(random: &mut Random, inside: Vec<u8>) -> Vec<u8> {
    let length = inside.len() as u32;
    let mut plan = Plan::around(0, vec![(10, length, inside)]);
    plan.total += 32;
    plan.bytes(random)
}

/// Gives the last record a free type and the length with which the records end on a multiple of 32, or one byte behind
/// one, or anywhere.
fn end_at_an_edge(random: &mut Random, plan: &mut Plan, room: usize) {
    let Some((_, _, last)) = plan.records.last() else {
        return;
    };
    let start = end_of(&plan.records) - last.len();
    let end = match random.below(3) {
        0 => start.next_multiple_of(32),
        1 => start.next_multiple_of(32) + 1,
        _ => room,
    };
    if end > room || end < start {
        return;
    }
    let length = end - start;
    plan.records.pop();
    plan.records.push((10, length as u32, (0..length).map(|_| random.byte()).collect()));
    *plan = Plan::around(plan.objects, std::mem::take(&mut plan.records));
}

fn record_type(random: &mut Random) -> u32 {
    match random.below(8) {
        0 => free_type(random),
        1 | 2 => 1,
        _ => random.within(1, 10) as u32,
    }
}

/// A type outside 1 to 9, often one that comes again, or one with the low bits of a known type.
fn free_type(random: &mut Random) -> u32 {
    match random.below(4) {
        0 => random.pick(&[11, 255, 256, u32::MAX]),
        1 => random.within(1, 9) as u32 | 1 << random.within(4, 31),
        _ => random.pick(&[0, 10]),
    }
}

/// The types with which this one does not go: a known one again, and 4 with 8.
fn rivals(record_type: u32) -> Vec<u32> {
    match record_type {
        4 | 8 => vec![4, 8],
        1..=9 => vec![record_type],
        _ => Vec::new(),
    }
}

/// Puts one more record in, whose type does not go with one that is there; then L is too small for it or too great, a length
/// is not that of its payload or not legal, or all else is right.
fn repeat(random: &mut Random, plan: &mut Plan) {
    if !plan.records.iter().any(|&(record_type, ..)| (1..=9).contains(&record_type)) {
        let record_type = random.within(2, 6) as u32;
        plan.add(random, record_type);
    }
    let known: Vec<u32> = plan.records.iter().flat_map(|&(record_type, ..)| rivals(record_type)).collect();
    let record_type = random.pick(&known);
    plan.add(random, record_type);
    let index = random.below(plan.records.len());
    let wrong = random.pick(&[0, 1, 2, 4, 16, u32::MAX]);
    match random.below(8) {
        0 | 1 => plan.total -= 32,
        2 => plan.total += 32,
        3 => plan.records[index].1 = wrong,
        4 => {
            let even = random.pick(&[2, 3, 4, 5, 8]);
            plan.records.insert(index, (even, 3, vec![1; 3]));
            *plan = Plan::around(plan.objects, std::mem::take(&mut plan.records));
        }
        _ => (),
    }
}

/// A legal payload length, within `room` where the type leaves a choice.
fn record_length(random: &mut Random, record_type: u32, objects: usize, room: usize) -> Option<usize> {
    let free = random.pick(&[0, 0, 4, 8, 16, 17, 64, 256]).min(room);
    match record_type {
        1 | 7 if objects == 0 => None,
        1 => Some(16 * objects),
        7 => Some(4 * objects),
        2 | 3 | 5 => Some(free / 2 * 2),
        4 | 8 => Some(free / 4 * 4),
        6 => Some(24),
        9 => Some(28),
        _ => Some(free),
    }
}

fn payload(random: &mut Random, record_type: u32, length: usize) -> Vec<u8> {
    match record_type {
        1 => (0..length / 4).flat_map(|_| float_bits(random).to_le_bytes()).collect(),
        _ if random.once_in(4) => (0..length).map(|index| MAGIC[index % 8]).collect(),
        _ => (0..length).map(|_| random.byte()).collect(),
    }
}

const EDGE_TOTALS: [u32; 16] =
    [0, 1, 31, 32, 40, 63, 64, 65, 96, 128, 32_736, 32_767, 32_768, 32_769, 32_800, 0xFFFF_FFE0];
const EDGE_COUNTS: [u32; 14] = [0, 1, 2, 3, 4, 7, 8, 31, 32, 33, 256, 0x1FFF_FFFF, 0x2000_0000, 0xFFFF_FFFF];
const EDGE_OBJECTS: [u32; 12] =
    [0, 1, 2, 2045, 2046, 8180, 8181, 0x0FFF_FFFF, 0x1000_0000, 0x1000_0001, 0x4000_0000, 0xFFFF_FFFF];
const EDGE_LENGTHS: [u32; 14] =
    [0, 1, 2, 4, 16, 24, 28, 32, 0x7FFF_FFFF, 0x8000_0000, 0xFFFF_FFC0, 0xFFFF_FFD8, 0xFFFF_FFF8, 0xFFFF_FFFF];

/// A piece of a hostile capture: a true packet, a near miss, or a false start. It is not empty.
pub(super) fn hostile(random: &mut Random, room: usize) -> Vec<u8> {
    if room < 64 {
        return MAGIC.iter().copied().cycle().take(room).collect();
    }
    let wanted = random.pick(&[64, 96, 128, 256, 512]);
    let mut plan = Plan::new(random, room.min(wanted) / 32 * 32);
    match random.below(24) {
        // A true packet.
        0 => plan.bytes(random),
        // A false start.
        sort @ 1..5 => false_start(random, sort, &[0, 1, 2, 3, 6, 24, 64, 96]),
        // A packet that breaks off.
        5 => {
            let mut bytes = plan.bytes(random);
            bytes.truncate(random.within(1, bytes.len() - 1));
            bytes
        }
        // A total length at a limit or one step off.
        6 => {
            plan.total = match random.below(4) {
                0 => plan.total + 32,
                1 => plan.total - 32,
                2 => plan.total.wrapping_add(random.pick(&[1, 4, 8, 16, u32::MAX])),
                _ => random.pick(&EDGE_TOTALS),
            };
            plan.bytes(random)
        }
        // A record count at a limit or one off.
        7 => {
            plan.count = match random.below(3) {
                0 => plan.count + 1,
                1 => plan.count.saturating_sub(1),
                _ => random.pick(&EDGE_COUNTS),
            };
            plan.bytes(random)
        }
        // An object count at a limit, or products that would be small again in 32 bits.
        8 => {
            plan.objects = random.pick(&EDGE_OBJECTS);
            plan.bytes(random)
        }
        // A record with another type.
        9 | 10 => {
            let other = record_type(random);
            if !plan.records.is_empty() {
                let index = random.below(plan.records.len());
                plan.records[index].0 = other;
            }
            plan.bytes(random)
        }
        // A record with another length than its payload has.
        11 | 12 => {
            let near = random.pick(&[1, 2, 4, 8, 16, 31, 32, 33]);
            let length = random.pick(&EDGE_LENGTHS);
            if !plan.records.is_empty() {
                let index = random.below(plan.records.len());
                let said = &mut plan.records[index].1;
                *said = match random.below(3) {
                    0 => said.wrapping_add(near),
                    1 => said.wrapping_sub(near),
                    _ => length,
                };
            }
            plan.bytes(random)
        }
        // A packet as a payload, in a packet that is whole or broken behind it.
        13 => {
            let inner = Plan::new(random, 128).bytes(random);
            let mut records = vec![(10, inner.len() as u32, inner)];
            if random.once_in(2) {
                records.insert(0, (2, 4, vec![2, 1, 4, 3]));
            }
            let mut outer = Plan::around(random.below(3) as u32, records);
            match random.below(4) {
                0 => outer.total += 32,
                1 => outer.count += 1,
                _ => (),
            }
            outer.bytes(random)
        }
        // As many records as can be, and record headers that fill the packet to its last byte.
        14 => {
            let count = random.pick(&[3, 7, 31, 32, 33]);
            let mut crowd = Plan::around(0, vec![(10, 0, Vec::new()); count]);
            if random.once_in(3) {
                crowd.total -= 32;
            }
            crowd.bytes(random)
        }
        // Fields at their limits with next to nothing behind them.
        15..18 => {
            plan.total = random.pick(&[64, 96, 128, 288, 320, 32_736, 32_768]);
            plan.count = random.pick(&[1, 1, 1, 2, 3, 7, 31, 32]);
            plan.objects = random.pick(&EDGE_OBJECTS);
            if random.once_in(2) {
                plan.objects = random.below(6) as u32;
            }
            plan.records.clear();
            for _ in 0..random.within(1, 3) {
                let record_type = record_type(random);
                plan.records.push((record_type, tight_length(random, &plan), Vec::new()));
            }
            plan.bytes(random)
        }
        // Products that are small again in 32 bits, with the payload that they would have.
        18 => {
            let (record_type, length, objects) =
                random.pick(&[(1, 16, 0x1000_0001), (1, 0, 0x1000_0000), (7, 4, 0x4000_0001), (7, 0, 0x4000_0000)]);
            Plan::around(objects, vec![(record_type, length, vec![1; length as usize])]).bytes(random)
        }
        // A known type again, or 4 beside 8.
        19..23 => {
            repeat(random, &mut plan);
            plan.bytes(random)
        }
        // A packet with a header of 44 bytes; a packet at the greatest length.
        _ => {
            if room >= 32_768 && random.once_in(8) {
                let length = random.pick(&[32_689, 32_720, 32_721]);
                let greatest = Plan::around(0, vec![(10, length, vec![7; length as usize])]);
                return greatest.bytes(random);
            }
            let mut bytes = plan.bytes(random);
            bytes.splice(40..40, [0; 4]);
            bytes
        }
    }
}

/// A payload length about which a check turns: the one that the object count asks for, a fixed one, or one with which
/// the records just fit or just don't.
fn tight_length(random: &mut Random, plan: &Plan) -> u32 {
    let room = plan.total - 48;
    let shared = room.wrapping_sub(8 * (plan.count - 1));
    let length = match random.below(8) {
        0 => plan.objects.wrapping_mul(16),
        1 => plan.objects.wrapping_mul(4),
        2 => random.pick(&[0, 24, 28]),
        3 | 4 => room,
        5 => room.wrapping_sub(random.pick(&[28, 30, 31, 32, 33])),
        _ => shared,
    };
    if random.once_in(2) {
        length
    } else {
        length.wrapping_add(random.pick(&[1, 2, 4, 8, u32::MAX, u32::MAX - 1, u32::MAX - 3]))
    }
}
