//! Vital-signs packets (document 002), true ones and near misses.

use super::mmwave;
use super::packets::{end_of, false_start, joined, Record, MAGIC};
use super::random::Random;

/// A packet's parts before they are put together; each can be given a wrong value.
#[derive(Clone, Debug)]
struct Plan {
    total: u32,
    fixed: u32,
    count: u32,
    subframe: u32,
    records: Vec<Record>,
}

impl Plan {
    /// Records of these types with legal payload lengths that take up at most `room` bytes with the header.
    fn new(random: &mut Random, types: &[u32], room: usize) -> Plan {
        let wanted = match random.below(12) {
            0 => 0,
            1 => random.within(1, 32),
            2 => 32,
            _ => random.within(1, 5),
        };
        let mut records = Vec::new();
        let mut end = 40;
        for _ in 0..wanted {
            let record_type = random.pick(types);
            let length = record_length(random, record_type, room.saturating_sub(end + 8));
            if end + 8 + length > room {
                break;
            }
            records.push(record(random, record_type, length));
            end += 8 + length;
        }
        Plan::around(records)
    }

    /// The plan of a packet with these records and the numbers that belong to them.
    fn around(records: Vec<Record>) -> Plan {
        Plan { total: end_of(&records) as u32, fixed: 99, count: records.len() as u32, subframe: 0, records }
    }

    fn bytes(&self, random: &mut Random) -> Vec<u8> {
        let (frame, time) = (random.word() & 0xFFFF, random.word());
        let header = [0x0305_0004, self.total, 0x000A_1642, frame, time, self.fixed, self.count, self.subframe];
        joined(header, &self.records)
    }
}

/// A whole packet that fits in `room` bytes.
pub fn packet(random: &mut Random, room: usize) -> Option<Vec<u8>> {
    if room < 40 {
        return None;
    }
    let wanted = match random.below(16) {
        0 => 40,
        1 => random.pick(&[48, 52, 56, 68, 72]),
        2 => 4096,
        3 if random.once_in(4) => 32_768,
        _ => random.pick(&[64, 128, 200, 256, 512, 1024]),
    };
    let room = wanted.min(room) / 4 * 4;
    if room >= 64 && random.once_in(6) {
        return Some(of_both(random, room));
    }
    let mut plan = Plan::new(random, &[1, 2, 3, 4], room);
    if random.once_in(3) {
        fill(random, &mut plan, room);
    }
    Some(plan.bytes(random))
}

/// A packet of at most `room` bytes, 64 at least, that is one of both packet dialects: 99 objects, subframe 0, no record of
/// type 1, each other type once, L a multiple of 32.
pub fn of_both(random: &mut Random, room: usize) -> Vec<u8> {
    let mut records: Vec<Record> = Vec::new();
    for drawn in Plan::new(random, &[3, 4], room).records {
        if records.iter().all(|(record_type, ..)| *record_type != drawn.0) {
            records.push(drawn);
        }
    }
    while (end_of(&records) + 8).next_multiple_of(32) > room {
        records.pop();
    }
    let start = end_of(&records) + 8;
    let rest = record(random, 2, start.next_multiple_of(32) - start);
    records.insert(random.within(0, records.len()), rest);
    Plan::around(records).bytes(random)
}

/// A packet as a monitor sends it, number `number`: the records that the user has enabled, in the order of document 002.
pub fn monitor_packet(random: &mut Random, number: u32) -> Vec<u8> {
    let float = |random: &mut Random, most: usize| (random.below(1000 * most) as f32 / 1000.0).to_bits();
    let enabled = if number == 0 { 15 } else { random.within(0, 15) };
    let (first_bin, bins, samples) = (random.within(4, 9) as u32, random.within(8, 20), random.within(4, 12));
    let analyzed = first_bin + random.below(bins) as u32;
    let mut records = Vec::new();
    if enabled & 1 != 0 {
        let signals = [200, 3, 2, 1].map(|most| float(random, most));
        let words = [[analyzed | analyzed << 16].as_slice(), &signals, &[number]].concat();
        records.push((1, 24, bytes_of(&words)));
    }
    for (bit, record_type, length) in [(2, 2, 4 * bins), (4, 3, 16 * samples)] {
        if enabled & bit != 0 {
            records.push((record_type, length as u32, (0..length).map(|_| random.byte()).collect()));
        }
    }
    if enabled & 8 != 0 {
        let last_bin = first_bin + bins as u32 - 1;
        let (accuracy, period) = (0.04f32.to_bits(), 0.05f32.to_bits());
        records.push((4, 20, bytes_of(&[accuracy, period, 32 | first_bin << 16, last_bin | 1 << 16, number])));
    }
    let header =
        [0x0305_0004, end_of(&records) as u32, 0x000A_1642, number, random.word(), 99, records.len() as u32, 0];
    joined(header, &records)
}

fn bytes_of(words: &[u32]) -> Vec<u8> {
    words.iter().flat_map(|word| word.to_le_bytes()).collect()
}

/// Gives the last record a type and the length with which it ends at `room`, a multiple of 4.
fn fill(random: &mut Random, plan: &mut Plan, room: usize) {
    let Some((_, _, last)) = plan.records.pop() else {
        return;
    };
    let start = end_of(&plan.records) + 8;
    let length = if room >= start { room - start } else { last.len() / 4 * 4 };
    let record_type = if length % 16 == 0 && random.once_in(2) { 3 } else { 2 };
    plan.records.push(record(random, record_type, length));
    *plan = Plan::around(std::mem::take(&mut plan.records));
}

fn record(random: &mut Random, record_type: u32, length: usize) -> Record {
    let payload = if random.once_in(4) {
        MAGIC.into_iter().cycle().take(length).collect()
    } else {
        (0..length).map(|_| random.byte()).collect()
    };
    (record_type, length as u32, payload)
}

/// A legal payload length, within `room` where the type leaves a choice.
fn record_length(random: &mut Random, record_type: u32, room: usize) -> usize {
    let free = random.pick(&[0, 0, 4, 8, 16, 20, 24, 32, 64, 256]).min(room);
    match record_type {
        1 => 24,
        2 => free / 4 * 4,
        3 => free / 16 * 16,
        _ => 20,
    }
}

const EDGE_TOTALS: [u32; 24] = [
    0, 1, 4, 36, 39, 40, 41, 42, 44, 45, 46, 48, 50, 52, 64, 32_764, 32_766, 32_767, 32_768, 32_769, 32_772, 65_576,
    0x0100_0028, 0xFFFF_FFFC,
];
const EDGE_COUNTS: [u32; 14] = [0, 1, 2, 3, 4, 7, 8, 31, 32, 33, 256, 0x1FFF_FFFF, 0x2000_0000, 0xFFFF_FFFF];
const EDGE_FIXED: [u32; 9] = [0, 1, 2, 98, 100, 0x0000_0163, 0x0000_6300, 0x0100_0063, 0xFFFF_FFFF];
const EDGE_SUBFRAMES: [u32; 6] = [1, 2, 99, 0x100, 0x0100_0000, 0xFFFF_FFFF];
const EDGE_TYPES: [u32; 16] = [0, 1, 2, 3, 4, 5, 6, 7, 8, 9, 10, 255, 257, 258, 0x0100_0002, 0xFFFF_FFFF];
const EDGE_LENGTHS: [u32; 17] =
    [0, 1, 2, 3, 4, 8, 16, 18, 20, 22, 24, 28, 0x7FFF_FFFC, 0x8000_0000, 0xFFFF_FFD8, 0xFFFF_FFF0, 0xFFFF_FFFF];

/// A piece of a hostile capture: a true packet, a near miss, or a false start. It is not empty.
pub(super) fn hostile(random: &mut Random, room: usize) -> Vec<u8> {
    if room < 64 {
        return MAGIC.iter().copied().cycle().take(room).collect();
    }
    let wanted = random.pick(&[40, 48, 64, 72, 128, 256, 512]);
    let mut plan = Plan::new(random, &[1, 2, 3, 4], room.min(wanted) / 4 * 4);
    match random.below(24) {
        // A true packet.
        0 => plan.bytes(random),
        // A false start.
        sort @ 1..5 => false_start(random, sort, &[0, 1, 2, 3, 4, 20, 24, 40, 48, 99]),
        // A packet that breaks off.
        5 => {
            let mut bytes = plan.bytes(random);
            bytes.truncate(random.within(1, bytes.len() - 1));
            bytes
        }
        // A total length at a limit or one step off.
        6 | 7 => {
            plan.total = match random.below(4) {
                0 => plan.total + random.pick(&[4, 8, 16, 32]),
                1 => plan.total - random.pick(&[4, 8, 16]),
                2 => plan.total.wrapping_add(random.pick(&[1, 2, 3, u32::MAX])),
                _ => random.pick(&EDGE_TOTALS),
            };
            plan.bytes(random)
        }
        // A record count at a limit or one off.
        8 => {
            plan.count = match random.below(3) {
                0 => plan.count + 1,
                1 => plan.count.saturating_sub(1),
                _ => random.pick(&EDGE_COUNTS),
            };
            plan.bytes(random)
        }
        // Another number than 99, another subframe than 0, and a wrong count before or behind it.
        9 | 10 => {
            if random.once_in(2) {
                plan.fixed = random.pick(&EDGE_FIXED);
            } else {
                plan.subframe = random.pick(&EDGE_SUBFRAMES);
            }
            if random.once_in(3) {
                plan.count = random.pick(&EDGE_COUNTS);
            }
            plan.bytes(random)
        }
        // A record with another type.
        11 | 12 => {
            let other = random.pick(&EDGE_TYPES);
            if !plan.records.is_empty() {
                let index = random.below(plan.records.len());
                plan.records[index].0 = other;
            }
            plan.bytes(random)
        }
        // A record with another length than its payload has.
        13 => {
            let near = random.pick(&[1, 2, 4, 8, 16, 20, 24]);
            let length = random.pick(&EDGE_LENGTHS);
            if !plan.records.is_empty() {
                let index = random.below(plan.records.len());
                let said = &mut plan.records[index].1;
                *said = match random.below(3) {
                    0 => said.wrapping_add(near),
                    1 => said.wrapping_sub(near),
                    _ => length,
                };
            }
            plan.bytes(random)
        }
        // Records whose types or lengths are not legal, with payloads that would fill L.
        14 | 15 => {
            let mut records = plan.records;
            records.truncate(4);
            for _ in 0..random.within(1, 2) {
                let record_type = if random.once_in(3) { random.pick(&EDGE_TYPES) } else { random.within(1, 4) as u32 };
                let length = random.pick(&[0, 2, 4, 8, 12, 16, 18, 20, 24, 28, 32]);
                let index = random.within(0, records.len());
                records.insert(index, record(random, record_type, length));
            }
            Plan::around(records).bytes(random)
        }
        // Padding behind the last record, as an mmWave packet has it.
        16 => {
            let end = plan.total as usize;
            let padded = if random.once_in(2) { end.next_multiple_of(32) } else { end + random.pick(&[4, 8, 28, 32]) };
            plan.total = padded as u32;
            let mut bytes = plan.bytes(random);
            bytes.resize(padded, 0);
            bytes
        }
        // A packet of both packet dialects, or one of mmWave.
        17 => match random.once_in(2) {
            true => of_both(random, room.min(512)),
            false => mmwave::packet(random, room.min(512)).unwrap_or_default(),
        },
        // A packet as a payload, in a packet that is whole or broken behind it.
        18 => {
            let inner = Plan::new(random, &[1, 2, 3, 4], 128).bytes(random);
            let mut records = vec![(2, inner.len() as u32, inner)];
            if random.once_in(2) {
                records.insert(0, (2, 4, vec![2, 1, 4, 3]));
            }
            let mut outer = Plan::around(records);
            match random.below(4) {
                0 => outer.total += 4,
                1 => outer.count += 1,
                _ => (),
            }
            outer.bytes(random)
        }
        // As many records as can be, and record headers that fill the packet to its last byte.
        19 => {
            let count = random.pick(&[1, 2, 31, 32, 33]);
            let record_type = random.pick(&[2, 3]);
            let mut crowd = Plan::around(vec![(record_type, 0, Vec::new()); count]);
            match random.below(4) {
                0 => crowd.total -= 4,
                1 => crowd.total += 4,
                _ => (),
            }
            crowd.bytes(random)
        }
        // Fields at their limits with next to nothing behind them.
        20..23 => {
            plan.total = random.pick(&[40, 48, 52, 56, 64, 68, 72, 76, 80, 96, 296, 300, 32_764, 32_768]);
            plan.count = random.pick(&[0, 1, 1, 1, 1, 2, 2, 3, 31, 32]);
            plan.records.clear();
            for _ in 0..random.within(1, 3) {
                let record_type = if random.once_in(8) { random.pick(&EDGE_TYPES) } else { random.within(1, 4) as u32 };
                plan.records.push((record_type, tight_length(random, &plan), Vec::new()));
            }
            plan.bytes(random)
        }
        // A packet with a header of 44 bytes; a packet at the greatest length.
        _ => {
            if room >= 32_768 && random.once_in(8) {
                let length = random.pick(&[32_716, 32_720, 32_724]);
                return Plan::around(vec![(2, length, vec![7; length as usize])]).bytes(random);
            }
            let mut bytes = plan.bytes(random);
            bytes.splice(40..40, [0; 4]);
            bytes
        }
    }
}

/// A payload length about which a check turns: a fixed one, or one with which the records just fit or just don't.
fn tight_length(random: &mut Random, plan: &Plan) -> u32 {
    let room = plan.total.wrapping_sub(48);
    let shared = room.wrapping_sub(8 * plan.count.saturating_sub(1));
    let length = match random.below(8) {
        0 => 24,
        1 => 20,
        2 => random.pick(&[0, 4, 16]),
        3 | 4 => room,
        5 => room / 16 * 16,
        _ => shared,
    };
    if random.once_in(2) {
        length
    } else {
        length.wrapping_add(random.pick(&[1, 2, 4, 8, 16, u32::MAX, u32::MAX - 1, u32::MAX - 3, u32::MAX - 15]))
    }
}
