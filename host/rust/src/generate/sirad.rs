//! SiRad frames, true ones and near misses.

use super::random::Random;

/// A whole SiRad frame of any kind that fits in `room` bytes.
pub fn frame(random: &mut Random, room: usize) -> Option<Vec<u8>> {
    let identifier = match room {
        0..8 => return None,
        8..16 => b'E',
        16..26 => random.pick(b"EERPC"),
        26..230 => random.pick(b"EEERPCUU"),
        _ => random.pick(b"EEERPCRPCUUT"),
    };
    Some(frame_of(random, identifier, room))
}

/// A whole SiRad frame with this identifier; `room` bytes hold it.
pub fn frame_of(random: &mut Random, identifier: u8, room: usize) -> Vec<u8> {
    let mut bytes = vec![b'!', identifier];
    match identifier {
        b'E' => hex(random, &mut bytes, 4),
        b'U' => {
            hex(random, &mut bytes, 1);
            characters(random, &mut bytes, 1);
            hex(random, &mut bytes, 20);
        }
        b'T' => {
            hex(random, &mut bytes, 1);
            characters(random, &mut bytes, 1);
            blocks(random, &mut bytes);
        }
        _ => {
            let size = data_size(random, room - 16);
            bytes.extend_from_slice(format!("{size:04X}").as_bytes());
            reserved(random, &mut bytes, 8);
            characters(random, &mut bytes, size);
        }
    }
    bytes.extend_from_slice(b"\r\n");
    bytes
}

/// The form of a block.
#[derive(Clone, Copy, PartialEq, Eq)]
enum Block {
    Target,
    /// A target of which nine of the first ten bytes are `0`.
    NearlyEmpty,
    /// Ten `0` and four reserved bytes.
    Zeros,
    /// Fourteen bytes of value 0.
    Value0,
}

/// Sixteen blocks: targets; a few of them and then empty blocks of one form; or any.
fn blocks(random: &mut Random, bytes: &mut Vec<u8>) {
    let rest = random.pick(&[None, Some(Block::Target), Some(Block::Zeros), Some(Block::Value0)]);
    let targets = random.pick(&[0, 1, 2, 2, 5, 15]);
    for index in 0..16 {
        let any = random.pick(&[Block::Target, Block::NearlyEmpty, Block::Zeros, Block::Value0]);
        block(random, bytes, rest.map_or(any, |rest| if index < targets { Block::Target } else { rest }));
    }
}

fn block(random: &mut Random, bytes: &mut Vec<u8>, form: Block) {
    let start = bytes.len();
    match form {
        Block::Target => {
            hex(random, bytes, 5);
            characters(random, bytes, 1);
            hex(random, bytes, 4);
        }
        Block::NearlyEmpty | Block::Zeros => bytes.resize(start + 10, b'0'),
        Block::Value0 => return bytes.resize(start + 14, 0),
    }
    if form == Block::NearlyEmpty {
        let place = random.below(10);
        bytes[start + place] = random.pick(if place == 5 { b"\"/1Z\xfe" } else { b"11289AF" });
    }
    reserved(random, bytes, 4);
}

/// A T frame as a board sends it: two targets that come closer from frame to frame, and fourteen empty blocks, of value 0 in
/// every second frame and of `0` in the others.
pub(super) fn two_targets(random: &mut Random, index: usize) -> Vec<u8> {
    let mut bytes = b"!T1Z".to_vec();
    for (number, first) in [(0, 1800), (1, 4300)] {
        bytes.extend(format!("{number:X}{:04X}", first - 25 * index % 1000).into_bytes());
        bytes.push(random.within(110, 140) as u8);
        bytes.extend(format!("{:04X}0000", random.word() as u16).into_bytes());
    }
    let form = if index % 2 == 1 { Block::Value0 } else { Block::Zeros };
    (2..16).for_each(|_| block(random, &mut bytes, form));
    bytes.extend_from_slice(b"\r\n");
    bytes
}

/// A T frame with one wrong byte: one that breaks a block of value 0, one that is no character in another block, or a byte 0
/// outside the blocks.
fn broken_targets(random: &mut Random) -> Vec<u8> {
    let mut bytes = frame_of(random, b'T', 230);
    if random.once_in(6) {
        bytes[random.pick(&[2, 3, 228, 229])] = 0;
        return bytes;
    }
    let form = random.pick(&[Block::Value0, Block::Value0, Block::Zeros, Block::Target]);
    let mut other = Vec::new();
    block(random, &mut other, form);
    let any = random.within(1, 13);
    let place = random.pick(&[1, 5, 9, 10, 13, any]);
    if form == Block::Value0 {
        other[place] = random.pick(b"00\x01\"!G\r\xfe\xff");
        if random.once_in(3) {
            // From here on it could be a block of `0`.
            other[place..].fill(b'0');
        }
    } else {
        other[place] = random.pick(b"\0\0\0\0 !\xff");
    }
    let any = random.below(16);
    let index = random.pick(&[0, 0, 0, 1, any, 15]);
    bytes[4 + 14 * index..][..14].copy_from_slice(&other);
    bytes
}

/// Mostly a small size; now and then one at a limit.
fn data_size(random: &mut Random, room: usize) -> usize {
    let size = match random.below(12) {
        0 => 0,
        1 => random.pick(&[1, 15, 16, 17, 255, 256, 257]),
        2 => random.pick(&[512, 1023, 4095, 4096, 4097]),
        3 if room > 65_000 && random.once_in(4) => random.pick(&[65_534, 65_535]),
        _ => random.below(33),
    };
    size.min(room)
}

fn hex(random: &mut Random, bytes: &mut Vec<u8>, count: usize) {
    bytes.extend((0..count).map(|_| random.pick(b"0123456789ABCDEF")));
}

/// Bytes 34 to 254, those at the edges more often.
fn characters(random: &mut Random, bytes: &mut Vec<u8>, count: usize) {
    bytes.extend((0..count).map(|_| match random.below(4) {
        0 => random.pick(b"\"\xfe0EZ"),
        _ => random.within(34, 254) as u8,
    }));
}

fn reserved(random: &mut Random, bytes: &mut Vec<u8>, count: usize) {
    if random.once_in(3) {
        characters(random, bytes, count);
    } else {
        bytes.resize(bytes.len() + count, b'0');
    }
}

/// A piece of a hostile capture: a true frame, a near miss, or a false start. It is not empty.
pub(super) fn hostile(random: &mut Random, room: usize) -> Vec<u8> {
    let Some(mut bytes) = frame(random, room.min(600)) else {
        return vec![random.pick(b"! E0\r\n\""); room];
    };
    match random.below(17) {
        // A true frame.
        0 | 1 => (),
        // Start markers everywhere.
        2 => bytes = vec![b'!'; random.within(1, 12)],
        // Starts of frames everywhere.
        3 => {
            let starts: [&[u8]; 9] =
                [b"!R", b"!E", b"!T", b"!E0", b"!R0000", b"!U5Z", b"!RFFFF00000000", b"!T5Z\0", b"!T5Z0000000000"];
            bytes = random.pick(&starts).repeat(random.within(1, 6));
        }
        // A frame that breaks off.
        4 => bytes.truncate(random.within(1, bytes.len() - 1)),
        // A true frame put inside another.
        5 => {
            let inner = frame(random, 26).unwrap_or_default();
            let place = random.below(bytes.len());
            bytes.splice(place..place, inner);
        }
        // A byte just outside its class.
        6 | 7 => {
            let place = random.below(bytes.len());
            bytes[place] = random.pick(b"afG/:@`\x20\x21\xff\x00\r\n\x0b\x0e");
        }
        // Lower case behind the identifier.
        8 => bytes[2..].make_ascii_lowercase(),
        // The wrong stop marker, or one that comes late.
        9 => {
            let stop: &[u8] = random.pick(&[b"\n\r", b"\r\r", b"\n\n", b"\r", b"\n", b" \r\n", b"\"\r\n"]);
            bytes.truncate(bytes.len() - 2);
            bytes.extend_from_slice(stop);
        }
        // A size that is not that of the data.
        10 => {
            let size = random.within(1, 20);
            let said = size as i32 + random.pick(&[-1, 1, 2, 16, 256]);
            bytes = format!("!{}{said:04X}00000000", random.pick(b"RPC") as char).into_bytes();
            characters(random, &mut bytes, size);
            bytes.extend_from_slice(b"\r\n");
        }
        // A size that would cover the frame behind it.
        11 => {
            let mut claim = format!("!R{:04X}00000000", random.within(1, 400)).into_bytes();
            let size = random.below(10);
            characters(random, &mut claim, size);
            bytes.splice(0..0, claim);
        }
        // Frames that 003 describes and this wire doesn't have.
        12 => {
            let other: &[u8] =
                random.pick(&[b"!UZ\r\n", b"!E\r\n", b"!S01003C02\r\n", b"!M\r\n", b"!V0000\r\n", b"!I00"]);
            bytes = other.to_vec();
        }
        // A T frame, true or with a wrong byte.
        14 => bytes = frame_of(random, b'T', 230),
        15 | 16 => bytes = broken_targets(random),
        // The greatest size, with all its data or one character short.
        _ => {
            if room >= 65_551 && random.once_in(20) {
                bytes = b"!CFFFF00000000".to_vec();
                let size = random.pick(&[65_534, 65_535, 65_535]);
                characters(random, &mut bytes, size);
                bytes.extend_from_slice(b"\r\n");
            }
        }
    }
    bytes
}
