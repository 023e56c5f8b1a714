//! The refusal numbers and the limits (paper 01, "Refusal numbers"; paper 02).
//!
//! "A refusal returns its number, every other number 0, and writes nothing."

/// A number from the paper's list.
pub type Refusal = u32;

/// 1: a dialect other than 0, 1 and 2; whether anyone is close: other than 1.
pub const UNKNOWN_DIALECT: Refusal = 1;
/// 2: a place beyond the length; equal is fine.
pub const PLACE_BEYOND_LENGTH: Refusal = 2;
/// 3: more than [`MAX_BYTES`] bytes lent, or in a stream.
pub const TOO_MANY_BYTES: Refusal = 3;
/// 4: a listing program's input exceeds [`MAX_LISTING_BYTES`] bytes.
pub const LISTING_TOO_LONG: Refusal = 4;
/// 5: the slice is not exactly one whole frame of the wanted kind.
pub const NOT_ONE_FRAME: Refusal = 5;
/// 6: an index at or over the count, or no record starts at a reader's place.
pub const NO_SUCH_INDEX: Refusal = 6;
/// 7: no record of type 1.
pub const NO_POINTS: Refusal = 7;
/// 30: the float is infinite or no number.
pub const NOT_FINITE: Refusal = 30;
/// 31: the float's magnitude is over 1000 m.
pub const TOO_FAR: Refusal = 31;
/// 32: an edition other than 1 and 2.
pub const UNKNOWN_EDITION: Refusal = 32;
/// 33: a distance over [`MAX_DISTANCE`].
pub const DISTANCE_TOO_GREAT: Refusal = 33;
/// 40: a command of under 4 bytes.
pub const NO_HEADER_WORD: Refusal = 40;
/// 41: a rest bit of the header word is set.
pub const REST_BIT_SET: Refusal = 41;
/// 42: a command length of 0.
pub const LENGTH_ZERO: Refusal = 42;
/// 43: the byte count is not four times the command length.
pub const LENGTH_MISMATCH: Refusal = 43;
/// 44: an unknown command code.
pub const UNKNOWN_CODE: Refusal = 44;
/// 45: the payload count is wrong for the code, or over 30.
pub const WRONG_PAYLOAD_COUNT: Refusal = 45;
/// 46: a selection word is out of range.
pub const SELECTION_OUT_OF_RANGE: Refusal = 46;
/// 50: a value without an encoding.
pub const NO_ENCODING: Refusal = 50;
/// 51: the output is too short.
pub const OUTPUT_TOO_SHORT: Refusal = 51;
/// 52: over 65,535 data characters.
pub const TOO_MUCH_DATA: Refusal = 52;
/// 53: an unknown kind.
pub const UNKNOWN_KIND: Refusal = 53;
/// 54: a target whose written block would be all `0`.
pub const EMPTY_TARGET: Refusal = 54;
/// 60: the bytes left waiting exceed the carry buffer.
pub const CARRY_TOO_SHORT: Refusal = 60;
/// 61: a call's frames exceed the row table.
pub const TABLE_TOO_SHORT: Refusal = 61;
/// 62: a stream counts more waiting bytes than the carry buffer holds.
pub const TOO_MANY_WAITING: Refusal = 62;

/// The most bytes that a judgement or a reading is lent, and that a stream has.
pub const MAX_BYTES: usize = 1_048_576;
/// The most bytes that a listing program reads.
pub const MAX_LISTING_BYTES: usize = 65_536;
/// The greatest distance, in millimetres, that is asked for.
pub const MAX_DISTANCE: u32 = 1_000_000;
