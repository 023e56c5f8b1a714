//! DemoRad commands, true ones and near misses, as bytes and as values to be written.

use super::random::Random;

/// What a code allows: the fewest and most payload words, and the word that selects with the most that it may be.
#[derive(Clone, Copy)]
struct Rule {
    code: u32,
    least: usize,
    most: usize,
    selection: Option<(usize, u32)>,
}

const fn rule(code: u32, least: usize, most: usize, selection: Option<(usize, u32)>) -> Rule {
    Rule { code, least, most, selection }
}

const RULES: [Rule; 7] = [
    rule(0x6005, 1, 1, None),
    rule(0x6006, 1, 1, Some((0, 4))),
    rule(0x6007, 1, 30, Some((0, 3))),
    rule(0x6008, 0, 30, None),
    rule(0x7003, 2, 2, None),
    rule(0x900E, 0, 30, None),
    rule(0x9017, 2, 30, Some((1, 3))),
];

/// Values to be written: words behind the count are any, and RD is a number, as C has it.
#[derive(Clone, Copy, Debug, PartialEq, Eq)]
#[allow(missing_docs)]
pub struct Values {
    pub rd: u32,
    pub code: u32,
    pub count: u32,
    pub words: [u32; 30],
}

/// Values with an encoding, or near misses: another code, count or selection, or two of them at once, and an RD that is no
/// flag.
pub fn values(random: &mut Random) -> Values {
    let Rule { code, least, most, selection } = random.pick(&RULES);
    let count = if random.once_in(4) { random.pick(&[least, most]) } else { random.within(least, most) };
    let mut words = [0; 30];
    for word in &mut words {
        *word = if random.once_in(2) { random.below(6) as u32 } else { random.word() };
    }
    if let Some((index, top)) = selection {
        words[index] = random.below(top as usize + 1) as u32;
    }
    let mut values = Values { rd: random.below(2) as u32, code, count: count as u32, words };
    if random.once_in(6) {
        values.rd = random.pick(&[2, 3, 256, 257, 0x0100_0000, 0x8000_0000, 0x8000_0001, u32::MAX]);
    }
    for _ in 0..random.pick(&[0, 0, 0, 1, 1, 2]) {
        spoil(random, &mut values, selection);
    }
    values
}

fn spoil(random: &mut Random, values: &mut Values, selection: Option<(usize, u32)>) {
    match random.below(3) {
        0 => {
            values.code = match random.below(3) {
                0 => values.code ^ 1 << random.below(32),
                1 => values.code.wrapping_add(random.pick(&[1, 0x1_0000, u32::MAX])),
                _ => random.word(),
            };
        }
        1 => {
            values.count = match random.below(3) {
                0 => random.below(4) as u32,
                1 => values.count.wrapping_add(1),
                _ => random.pick(&[30, 31, 32, 33, 0x8000_0000, u32::MAX]),
            };
        }
        _ => {
            let (index, top) = selection.unwrap_or((random.below(2), 3));
            values.words[index] = match random.below(3) {
                0 => top + 1,
                1 => random.pick(&[256, 0x0100_0000, u32::MAX]),
                _ => random.word(),
            };
        }
    }
}

/// The bytes of a command: those of values as above, and now and then a rest bit, a wrong length or another byte count.
pub fn bytes(random: &mut Random) -> Vec<u8> {
    let values = values(random);
    let payload = &values.words[..(values.count as usize).min(30)];
    let mut header = values.rd << 31 | (payload.len() as u32 + 1) << 16 | values.code & 0xFFFF;
    let mut rest: Vec<u8> = payload.iter().flat_map(|word| word.to_le_bytes()).collect();
    for _ in 0..random.pick(&[0, 0, 0, 1, 1, 2]) {
        match random.below(6) {
            0 => header ^= 1 << random.within(21, 30),
            1 => header &= !(0x1F << 16),
            2 => header ^= 1 << random.within(16, 20),
            3 => rest.truncate(random.below(rest.len() + 1)),
            4 => rest.extend((0..random.within(1, 5)).map(|_| random.byte())),
            _ => header = random.word(),
        }
    }
    let mut bytes = header.to_le_bytes().to_vec();
    bytes.extend(rest);
    if random.once_in(12) {
        bytes.truncate(random.below(5));
    }
    bytes
}

// The edges, one by one.

/// The seven codes, unknown ones beside them, and one whose lower half is a code.
const CODES: [u32; 13] =
    [0x6005, 0x6006, 0x6007, 0x6008, 0x7003, 0x900E, 0x9017, 0, 0x6004, 0x6009, 0x7002, 0x9018, 0x1_6005];

/// Selections about every bound.
const SELECTIONS: [u32; 7] = [0, 1, 2, 3, 4, 5, u32::MAX];

/// Thirty words: two given ones, then words whose bytes count up.
fn words_from(first: u32, second: u32) -> [u32; 30] {
    let mut words = std::array::from_fn(|index| 0x0302_0100 + 0x0404_0404 * index as u32);
    words[..2].copy_from_slice(&[first, second]);
    words
}

/// Each code with each count up to 31 and with the largest, RD both ways; each selection as the first and the second of 1, 2
/// and 30 words, with an RD that is a flag and with some that are none.
pub fn edge_values() -> Vec<Values> {
    let mut all = Vec::new();
    for code in CODES {
        for count in (0..32).chain([u32::MAX]) {
            all.extend([0, 1].map(|rd| Values { rd, code, count, words: words_from(1, 2) }));
        }
        for selection in SELECTIONS {
            for (count, first, second) in [
                (1, selection, 0),
                (2, selection, 0),
                (2, 0, selection),
                (30, 0, selection),
                (30, selection, selection),
            ] {
                let words = words_from(first, second);
                all.extend([count & 1, 2, 0x8000_0001].map(|rd| Values { rd, code, count, words }));
            }
        }
    }
    all
}

/// Each code of 16 bits with each length, RD both ways, and with each selection as above; each length with the byte count
/// right, one and four off; each bit of a header, alone and above a legal length; more than one refusal at once.
pub fn edge_bytes() -> Vec<Vec<u8>> {
    let mut all = Vec::new();
    let mut case = |size: usize, header: u32, first: u32, second: u32| {
        let words = [header].into_iter().chain(words_from(first, second)).chain([0xAAAA_AAAA; 4]);
        all.push(words.flat_map(u32::to_le_bytes).take(size).collect());
    };
    for code in CODES.into_iter().filter(|&code| code < 0x1_0000) {
        for length in 0..32 {
            for rd in [0, 1 << 31] {
                case(4 * length as usize, rd | length << 16 | code, 1, 2);
            }
        }
        for selection in SELECTIONS {
            for (length, first, second) in [
                (2, selection, 0),
                (3, selection, 0),
                (3, 0, selection),
                (31, 0, selection),
                (31, selection, selection),
            ] {
                case(4 * length as usize, length << 16 | code, first, second);
            }
        }
    }
    for length in 0..32 {
        let size = 4 * length as usize;
        for size in [Some(size), Some(size + 1), Some(size + 4), size.checked_sub(1), size.checked_sub(4)] {
            size.into_iter().for_each(|size| case(size, length << 16 | 0x6008, 0, 0));
        }
    }
    for bit in 0..32 {
        case(4, 1 << bit, 0, 0);
        if bit > 20 {
            case(4, 1 << bit | 0x0001_6008, 0, 0);
        }
    }
    for (size, header, word) in [
        (0, 0, 0),
        (1, u32::MAX, 0),
        (3, u32::MAX, 0),
        (5, 0xFFE0_0000, 0),
        (5, 0x8000_0000, 0),
        (5, 0x8001_0000, 0),
        (4, 0x8001_0000, 0),
        (8, 0x0002_0001, 9),
        (12, 0x0003_6006, 9),
        (8, 0x0002_9017, 9),
        (8, 0x0002_6006, 5),
    ] {
        case(size, header, word, 9);
    }
    all
}

#[cfg(test)]
mod tests {
    use super::*;
    use crate::demorad::{read, write, Command};

    #[test]
    fn each_code_and_each_refusal_comes() {
        let mut random = Random::new(1);
        let (mut codes, mut refusals, mut flags) = (Vec::new(), Vec::new(), Vec::new());
        for _ in 0..5000 {
            match read(&bytes(&mut random)) {
                Ok(command) => codes.push(command.code),
                Err(refusal) => refusals.push(refusal),
            }
            let Values { rd, code, count, words } = values(&mut random);
            refusals.extend(write(&Command { rd: rd == 1, code, count: count as usize, words }, &mut []).err());
            flags.push(rd);
        }
        for Rule { code, .. } in RULES {
            assert!(codes.iter().filter(|&&read| read == code).count() > 50, "{code:04X}");
        }
        for refusal in [40, 41, 42, 43, 44, 45, 46, 51] {
            assert!(refusals.iter().filter(|&&given| given == refusal).count() > 50, "{refusal}");
        }
        for flag in [0, 1, 2, 256, 0x8000_0000, u32::MAX] {
            assert!(flags.iter().filter(|&&given| given == flag).count() > 50, "{flag}");
        }
    }
}
