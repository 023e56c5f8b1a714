//! The judgement on the bytes from a place (paper 01, "Judging a place").

use crate::refusal::{Refusal, MAX_BYTES, PLACE_BEYOND_LENGTH, TOO_MANY_BYTES, UNKNOWN_DIALECT};
use crate::{mmwave, sirad, vital_signs};

/// Dialect 0: SiRad.
pub const SIRAD: u32 = 0;
/// Dialect 1: mmWave.
pub const MMWAVE: u32 = 1;
/// Dialect 2: vital signs.
pub const VITAL_SIGNS: u32 = 2;
/// All dialects.
pub const DIALECTS: [u32; 3] = [SIRAD, MMWAVE, VITAL_SIGNS];

/// 10: no start marker.
pub const NO_START_MARKER: u32 = 10;
/// 11: unknown identifier.
pub const UNKNOWN_IDENTIFIER: u32 = 11;
/// 12: not a hex digit.
pub const NOT_A_HEX_DIGIT: u32 = 12;
/// 13: not a character.
pub const NOT_A_CHARACTER: u32 = 13;
/// 14: wrong stop marker.
pub const WRONG_STOP_MARKER: u32 = 14;
/// 17: a byte other than 0 in a block of a T frame whose first byte is 0.
pub const BROKEN_EMPTY_BLOCK: u32 = 17;
/// 20: not the magic.
pub const WRONG_MAGIC: u32 = 20;
/// 21: the total length L is not legal.
pub const ILLEGAL_TOTAL_LENGTH: u32 = 21;
/// 22: K over 32, or 8K over L - 40, or K = 0 with L not 64 (mmWave), not 40 (vital signs).
pub const ILLEGAL_RECORD_COUNT: u32 = 22;
/// 23: seen at a type: no legal payload length of this type lets the K records end so that L fits.
pub const TYPE_CANNOT_FIT: u32 = 23;
/// 24: seen at a length: not legal for the type, or the same lack of fit.
pub const ILLEGAL_PAYLOAD_LENGTH: u32 = 24;
/// 25: seen at a type, before 23, in an mmWave packet: "a known type (1 to 9) that occurs again, or type 8 with 4 present, or 4
/// with 8".
pub const REPEATED_TYPE: u32 = 25;
/// 26: "a wrong 99 or subframe, at its own field", of a vital-signs packet.
pub const WRONG_FIXED_FIELD: u32 = 26;

/// "A judgement on the bytes from a place is one of three."
#[derive(Clone, Copy, Debug, PartialEq, Eq)]
pub enum Judgement {
    /// A frame stands at the place.
    Whole {
        /// 1 to 6 for SiRad, 16 for mmWave, 17 for vital signs.
        kind: u32,
        /// The frame's bytes.
        length: usize,
    },
    /// No frame stands there, whatever bytes follow.
    Bad {
        /// 10 to 14 and 17 for SiRad, 20 to 25 for mmWave, 20 to 24 and 26 for vital signs: the first check that fails.
        reason: u32,
    },
    /// No check has failed and the frame is not all there.
    Waiting,
}

/// Judges the bytes from `place` on. Refusals in the order 1, 3, 2.
///
/// ```
/// use radar_reference::judgement::{judge, Judgement, SIRAD};
///
/// assert_eq!(judge(SIRAD, b"..!E0000\r\n", 2), Ok(Judgement::Whole { kind: 6, length: 8 }));
/// assert_eq!(judge(SIRAD, b"!E00", 0), Ok(Judgement::Waiting));
/// assert_eq!(judge(SIRAD, b"!E00G", 0), Ok(Judgement::Bad { reason: 12 }));
/// assert_eq!(judge(SIRAD, b"!E00", 5), Err(2));
/// ```
pub fn judge(dialect: u32, bytes: &[u8], place: usize) -> Result<Judgement, Refusal> {
    test_lent(dialect, bytes)?;
    if place > bytes.len() {
        return Err(PLACE_BEYOND_LENGTH);
    }
    Ok(judge_front(dialect, &bytes[place..]))
}

/// The refusals that the judgement and the readings share: 1, then 3.
pub(crate) fn test_lent(dialect: u32, bytes: &[u8]) -> Result<(), Refusal> {
    test_dialect(dialect)?;
    if bytes.len() > MAX_BYTES {
        return Err(TOO_MANY_BYTES);
    }
    Ok(())
}

/// 1 for a dialect that there is not.
pub(crate) fn test_dialect(dialect: u32) -> Result<(), Refusal> {
    if !DIALECTS.contains(&dialect) {
        return Err(UNKNOWN_DIALECT);
    }
    Ok(())
}

/// The judgement at the front of `bytes`, for a dialect already tested.
pub(crate) fn judge_front(dialect: u32, bytes: &[u8]) -> Judgement {
    match dialect {
        SIRAD => sirad::judge(bytes),
        MMWAVE => mmwave::judge(bytes),
        _ => vital_signs::judge(bytes),
    }
}

#[cfg(test)]
mod tests {
    use super::*;

    #[test]
    fn refusals_come_in_the_order_1_3_2() {
        let long = vec![0u8; MAX_BYTES + 1];
        assert_eq!(judge(3, &long, MAX_BYTES + 2), Err(UNKNOWN_DIALECT));
        assert_eq!(judge(0, &long, MAX_BYTES + 2), Err(TOO_MANY_BYTES));
        assert_eq!(judge(0, &long, 0), Err(TOO_MANY_BYTES));
        assert_eq!(judge(2, &long, MAX_BYTES + 2), Err(TOO_MANY_BYTES));
        assert_eq!(judge(1, &long[1..], MAX_BYTES + 1), Err(PLACE_BEYOND_LENGTH));
        assert_eq!(judge(u32::MAX, b"", 1), Err(UNKNOWN_DIALECT));
        assert_eq!(judge(1, b"", 1), Err(PLACE_BEYOND_LENGTH));
        assert_eq!(judge(1, b"", usize::MAX), Err(PLACE_BEYOND_LENGTH));
        assert_eq!(judge(2, b"", 1), Err(PLACE_BEYOND_LENGTH));
    }

    #[test]
    fn the_place_at_the_very_end_waits() {
        for dialect in DIALECTS {
            assert_eq!(judge(dialect, b"", 0), Ok(Judgement::Waiting));
            assert_eq!(judge(dialect, b"abc", 3), Ok(Judgement::Waiting));
            assert_eq!(judge(dialect, &vec![0u8; MAX_BYTES], MAX_BYTES), Ok(Judgement::Waiting));
        }
    }
}
