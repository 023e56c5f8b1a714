//! The judgement of SiRad frames (paper 01, "The three wires"; paper 02 (ii); documents 000 and 003).
//!
//! "A frame is byte 33 `!`, an identifier, a body, then 13 and 10." It is judged byte by byte: each byte is either
//! missing (then the place waits), or it fails its check (then the place is bad), or the next byte is looked at.

use crate::judgement::{
    Judgement, BROKEN_EMPTY_BLOCK, NOT_A_CHARACTER, NOT_A_HEX_DIGIT, NO_START_MARKER, UNKNOWN_IDENTIFIER,
    WRONG_STOP_MARKER,
};

/// Kind 1, identifier R: range data.
pub const RANGE: u32 = 1;
/// Kind 2, identifier P: phase data.
pub const PHASE: u32 = 2;
/// Kind 3, identifier C: CFAR data.
pub const CFAR: u32 = 3;
/// Kind 4, identifier T: the target list.
pub const TARGETS: u32 = 4;
/// Kind 5, identifier U: the status update.
pub const STATUS: u32 = 5;
/// Kind 6, identifier E: the error flags.
pub const ERROR: u32 = 6;

/// The byte that starts each frame.
pub const START_MARKER: u8 = b'!';
/// The two bytes that end each frame.
pub const STOP_MARKER: [u8; 2] = [13, 10];
/// The identifiers, kind 1 first.
pub const IDENTIFIERS: [u8; 6] = *b"RPCTUE";
/// Reserved bytes of a frame with data, between its size and its characters.
pub const DATA_RESERVED: usize = 8;
/// Blocks in a T frame.
pub const BLOCKS: usize = 16;
/// The bytes of a block.
pub const BLOCK_LENGTH: usize = 14;
/// Reserved bytes at the end of a block.
pub const BLOCK_RESERVED: usize = 4;
/// The bytes of a T frame.
pub const TARGETS_LENGTH: usize = 230;
/// The bytes of a U frame.
pub const STATUS_LENGTH: usize = 26;
/// The bytes of an E frame.
pub const ERROR_LENGTH: usize = 8;
/// The bytes of an R, P or C frame beside its data characters.
pub const DATA_OVERHEAD: usize = 16;

/// "A character is a byte 34 to 254 (000)."
pub fn is_character(byte: u8) -> bool {
    (34..=254).contains(&byte)
}

/// The value of an upper-case hex digit; "lower case is refused".
pub fn hex_value(byte: u8) -> Option<u32> {
    match byte {
        b'0'..=b'9' => Some(u32::from(byte - b'0')),
        b'A'..=b'F' => Some(u32::from(byte - b'A') + 10),
        _ => None,
    }
}

/// The kind that an identifier names.
pub fn kind_of(identifier: u8) -> Option<u32> {
    (1..).zip(IDENTIFIERS).find(|&(_, known)| known == identifier).map(|(kind, _)| kind)
}

/// Judges the frame at the front of `bytes`.
pub fn judge(bytes: &[u8]) -> Judgement {
    let mut front = Front { bytes, place: 0 };
    match front.frame() {
        Ok(kind) => Judgement::Whole { kind, length: front.place },
        Err(stopped) => stopped,
    }
}

/// The bytes from the place judged, and how many of them are checked. A check that can't go on answers with the
/// judgement: waiting for want of a byte, or bad.
struct Front<'a> {
    bytes: &'a [u8],
    place: usize,
}

impl Front<'_> {
    fn frame(&mut self) -> Result<u32, Judgement> {
        self.marker(START_MARKER, NO_START_MARKER)?;
        let kind = self.identifier()?;
        match kind {
            TARGETS => self.targets()?,
            STATUS => self.status()?,
            ERROR => {
                self.hex(4)?;
            }
            _ => self.data()?,
        }
        self.marker(STOP_MARKER[0], WRONG_STOP_MARKER)?;
        self.marker(STOP_MARKER[1], WRONG_STOP_MARKER)?;
        Ok(kind)
    }

    /// Size n (4 hex), 8 reserved, n characters.
    fn data(&mut self) -> Result<(), Judgement> {
        let size = self.hex(4)?;
        self.characters(DATA_RESERVED)?;
        self.characters(size as usize)
    }

    /// Format (1 hex), gain (char), 16 blocks.
    fn targets(&mut self) -> Result<(), Judgement> {
        self.hex(1)?;
        self.characters(1)?;
        for _ in 0..BLOCKS {
            self.block()?;
        }
        Ok(())
    }

    /// Number (1 hex), distance (4 hex), magnitude (char), phase (4 hex), 4 reserved; or fourteen bytes of value 0: "a first
    /// byte 0 commits the other thirteen".
    fn block(&mut self) -> Result<(), Judgement> {
        if self.bytes.get(self.place) == Some(&0) {
            return (0..BLOCK_LENGTH).try_for_each(|_| self.marker(0, BROKEN_EMPTY_BLOCK));
        }
        self.hex(1)?;
        self.hex(4)?;
        self.characters(1)?;
        self.hex(4)?;
        self.characters(BLOCK_RESERVED)
    }

    /// Format, gain, then accuracy, max range, ramp time, bandwidth and time difference of 4 hex each.
    fn status(&mut self) -> Result<(), Judgement> {
        self.hex(1)?;
        self.characters(1)?;
        for _ in 0..5 {
            self.hex(4)?;
        }
        Ok(())
    }

    fn byte(&mut self) -> Result<u8, Judgement> {
        let byte = *self.bytes.get(self.place).ok_or(Judgement::Waiting)?;
        self.place += 1;
        Ok(byte)
    }

    fn marker(&mut self, expected: u8, reason: u32) -> Result<(), Judgement> {
        if self.byte()? == expected {
            Ok(())
        } else {
            Err(Judgement::Bad { reason })
        }
    }

    fn identifier(&mut self) -> Result<u32, Judgement> {
        kind_of(self.byte()?).ok_or(Judgement::Bad { reason: UNKNOWN_IDENTIFIER })
    }

    fn hex(&mut self, digits: usize) -> Result<u32, Judgement> {
        let mut value = 0;
        for _ in 0..digits {
            let digit = hex_value(self.byte()?).ok_or(Judgement::Bad { reason: NOT_A_HEX_DIGIT })?;
            value = value * 16 + digit;
        }
        Ok(value)
    }

    fn characters(&mut self, count: usize) -> Result<(), Judgement> {
        for _ in 0..count {
            if !is_character(self.byte()?) {
                return Err(Judgement::Bad { reason: NOT_A_CHARACTER });
            }
        }
        Ok(())
    }
}

#[cfg(test)]
mod tests {
    use super::*;

    fn bad(reason: u32) -> Judgement {
        Judgement::Bad { reason }
    }

    fn whole(kind: u32, length: usize) -> Judgement {
        Judgement::Whole { kind, length }
    }

    #[test]
    fn an_error_frame_is_judged_byte_by_byte() {
        let frame = b"!E09AF\r\n";
        for end in 0..frame.len() {
            assert_eq!(judge(&frame[..end]), Judgement::Waiting);
        }
        assert_eq!(judge(frame), whole(ERROR, 8));
        assert_eq!(judge(b"!E09AF\r\nrest"), whole(ERROR, 8));
    }

    #[test]
    fn each_reason_is_given_at_its_byte() {
        assert_eq!(judge(b"x"), bad(10));
        assert_eq!(judge(b"!e"), bad(11));
        assert_eq!(judge(b"!!"), bad(11));
        assert_eq!(judge(b"!I"), bad(11));
        assert_eq!(judge(b"!V"), bad(11));
        assert_eq!(judge(b"!E00a"), bad(12));
        assert_eq!(judge(b"!E00G"), bad(12));
        assert_eq!(judge(b"!E000/"), bad(12));
        assert_eq!(judge(b"!E000:"), bad(12));
        assert_eq!(judge(b"!E000@"), bad(12));
        assert_eq!(judge(b"!R00010000000 "), bad(13));
        assert_eq!(judge(b"!R000100000000!"), bad(13));
        assert_eq!(judge(b"!R000100000000\xff"), bad(13));
        assert_eq!(judge(b"!R000100000000\xfe\n"), bad(14));
        assert_eq!(judge(b"!R000100000000\"\r\r"), bad(14));
        assert_eq!(judge(b"!R000000000000\r"), Judgement::Waiting);
        assert_eq!(judge(b"!R0000000000000"), bad(14));
    }

    #[test]
    fn the_first_failing_check_gives_the_reason() {
        assert_eq!(judge(b"?e"), bad(10));
        assert_eq!(judge(b"!Rg\x00"), bad(12));
        assert_eq!(judge(b"!Tg\x00"), bad(12));
        assert_eq!(judge(b"!T0\x00g"), bad(13));
    }

    #[test]
    fn a_first_byte_0_commits_the_other_thirteen() {
        let mut frame = [b"!T5Z".as_slice(), &[0; 14 * 16], b"\r\n"].concat();
        for end in 0..frame.len() {
            assert_eq!(judge(&frame[..end]), Judgement::Waiting);
        }
        assert_eq!(judge(&frame), whole(TARGETS, 230));
        for place in 5..18 {
            for byte in [1, b'0', b'"', 255] {
                frame[place] = byte;
                assert_eq!(judge(&frame[..place]), Judgement::Waiting);
                assert_eq!(judge(&frame[..=place]), bad(17));
                assert_eq!(judge(&frame), bad(17));
            }
            frame[place] = 0;
        }
        // The two forms and a target side by side; a byte 0 in a target has the reason that it had.
        let mut frame = [b"!T5Z".as_slice(), &[0; 14], b"00000000000000", b"10200Z80000000"].concat();
        assert_eq!(judge(&frame), Judgement::Waiting);
        for (place, reason) in [(2, 12), (3, 13), (19, 12), (23, 13), (27, 12), (28, 13), (31, 13), (33, 12), (45, 13)]
        {
            let byte = std::mem::replace(&mut frame[place], 0);
            assert_eq!(judge(&frame), bad(reason), "{place}");
            frame[place] = byte;
        }
    }

    #[test]
    fn totals_are_those_of_the_table() {
        for (kind, identifier) in (1..=3).zip(*b"RPC") {
            for size in [0usize, 1, 2, 255, 256, 4096, 65_535] {
                let mut frame = format!("!{}{size:04X}00000000", identifier as char).into_bytes();
                frame.resize(14 + size, b'"');
                frame.extend_from_slice(b"\r\n");
                assert_eq!(judge(&frame), whole(kind, 16 + size));
                assert_eq!(judge(&frame[..frame.len() - 1]), Judgement::Waiting);
            }
        }
        let mut targets = b"!T5\xb6".to_vec();
        for number in 0..16 {
            targets.extend_from_slice(format!("{number:X}0200Z80000000").as_bytes());
        }
        targets.extend_from_slice(b"\r\n");
        assert_eq!(targets.len(), TARGETS_LENGTH);
        assert_eq!(judge(&targets), whole(TARGETS, 230));
        assert_eq!(judge(b"!U5Z02000200020002000200\r\n"), whole(STATUS, 26));
        assert_eq!(judge(b"!E0000\r\n"), whole(ERROR, 8));
    }

    #[test]
    fn the_byte_classes_are_those_of_the_paper() {
        let characters = (0..=255u8).filter(|&byte| is_character(byte)).count();
        assert_eq!(characters, 221);
        let digits: Vec<u8> = (0..=255u8).filter(|&byte| hex_value(byte).is_some()).collect();
        assert_eq!(digits, b"0123456789ABCDEF");
        assert_eq!((0..=255u8).filter(|&byte| kind_of(byte).is_some()).count(), 6);
    }

    #[test]
    fn a_003_style_status_frame_is_not_one_here() {
        // 003 prints `!U`, gain, stop; 000 decides on a frame that both describe.
        assert_eq!(judge(b"!UZ\r\n"), bad(12));
    }
}
