//! The libraries' answers in their C form (`host/include/vellanquor.h`), and what has that face.

pub mod feeding;
pub mod fields;
pub mod proximity;

use crate::judgement::{self, judge};
use crate::numbers::{millimetres, phase_hundredths};
use crate::reading::{self, closed_reading, open_reading};
use crate::refusal::Refusal;

/// `struct vq_judgement`: state 1 whole, 2 bad, 3 waiting; on a refusal all others 0, the state too.
#[repr(C)]
#[derive(Clone, Copy, Debug, Default, PartialEq, Eq)]
#[allow(missing_docs)]
pub struct Judgement {
    pub refusal: u32,
    pub state: u32,
    pub kind: u32,
    pub reason: u32,
    pub length: u64,
}

/// `struct vq_millimetres`.
#[repr(C)]
#[derive(Clone, Copy, Debug, Default, PartialEq, Eq)]
#[allow(missing_docs)]
pub struct Millimetres {
    pub refusal: u32,
    pub value: i32,
}

/// `struct vq_centidegrees`.
#[repr(C)]
#[derive(Clone, Copy, Debug, Default, PartialEq, Eq)]
#[allow(missing_docs)]
pub struct Centidegrees {
    pub refusal: u32,
    pub value: i32,
}

/// `struct vq_reading`.
#[repr(C)]
#[derive(Clone, Copy, Debug, Default, PartialEq, Eq)]
#[allow(missing_docs)]
pub struct Reading {
    pub refusal: u32,
    pub state: u32,
    pub rows: u64,
    pub skipped: u64,
    pub next: u64,
}

/// State 1 of a judgement.
pub const WHOLE: u32 = 1;
/// State 2 of a judgement.
pub const BAD: u32 = 2;
/// State 3 of a judgement.
pub const WAITING: u32 = 3;

impl From<Result<judgement::Judgement, Refusal>> for Judgement {
    fn from(answer: Result<judgement::Judgement, Refusal>) -> Judgement {
        let none = Judgement::default();
        match answer {
            Ok(judgement::Judgement::Whole { kind, length }) => {
                Judgement { state: WHOLE, kind, length: length as u64, ..none }
            }
            Ok(judgement::Judgement::Bad { reason }) => Judgement { state: BAD, reason, ..none },
            Ok(judgement::Judgement::Waiting) => Judgement { state: WAITING, ..none },
            Err(refusal) => Judgement { refusal, ..none },
        }
    }
}

impl From<Result<i32, Refusal>> for Millimetres {
    fn from(answer: Result<i32, Refusal>) -> Millimetres {
        match answer {
            Ok(value) => Millimetres { refusal: 0, value },
            Err(refusal) => Millimetres { refusal, value: 0 },
        }
    }
}

impl From<Result<i32, Refusal>> for Centidegrees {
    fn from(answer: Result<i32, Refusal>) -> Centidegrees {
        match answer {
            Ok(value) => Centidegrees { refusal: 0, value },
            Err(refusal) => Centidegrees { refusal, value: 0 },
        }
    }
}

impl From<Result<reading::Reading, Refusal>> for Reading {
    fn from(answer: Result<reading::Reading, Refusal>) -> Reading {
        match answer {
            Ok(reading::Reading { rows, skipped, next, state }) => {
                Reading { refusal: 0, state, rows: rows as u64, skipped: skipped as u64, next: next as u64 }
            }
            Err(refusal) => Reading { refusal, ..Reading::default() },
        }
    }
}

/// What can be compared: the judgement, the millimetre rule, the phase rule and both readings.
pub trait Subject {
    /// `vq_judge`.
    fn judge(&self, dialect: u32, bytes: &[u8], place: usize) -> Judgement;
    /// `vq_millimetres`.
    fn millimetres(&self, edition: u32, bits: u32) -> Millimetres;
    /// `vq_centidegrees`.
    fn centidegrees(&self, character: u8) -> Centidegrees;
    /// `vq_open_reading`.
    fn open_reading(&self, dialect: u32, bytes: &[u8], table: &mut [u32]) -> Reading;
    /// `vq_closed_reading`.
    fn closed_reading(&self, dialect: u32, bytes: &[u8], table: &mut [u32]) -> Reading;
}

/// The reader of this package with that face.
pub struct Reference;

impl Subject for Reference {
    fn judge(&self, dialect: u32, bytes: &[u8], place: usize) -> Judgement {
        judge(dialect, bytes, place).into()
    }

    fn millimetres(&self, edition: u32, bits: u32) -> Millimetres {
        millimetres(edition, bits).into()
    }

    fn centidegrees(&self, character: u8) -> Centidegrees {
        phase_hundredths(character).into()
    }

    fn open_reading(&self, dialect: u32, bytes: &[u8], table: &mut [u32]) -> Reading {
        open_reading(dialect, bytes, table).into()
    }

    fn closed_reading(&self, dialect: u32, bytes: &[u8], table: &mut [u32]) -> Reading {
        closed_reading(dialect, bytes, table).into()
    }
}

#[cfg(test)]
mod tests {
    use super::*;
    use std::mem::{align_of, offset_of, size_of};

    #[test]
    fn the_layout_is_that_of_the_header() {
        assert_eq!((size_of::<Judgement>(), align_of::<Judgement>()), (24, 8));
        assert_eq!(offset_of!(Judgement, length), 16);
        assert_eq!((size_of::<Millimetres>(), align_of::<Millimetres>()), (8, 4));
        assert_eq!((size_of::<Centidegrees>(), align_of::<Centidegrees>()), (8, 4));
        assert_eq!((size_of::<Reading>(), align_of::<Reading>()), (32, 8));
        assert_eq!(offset_of!(Reading, rows), 8);
    }

    #[test]
    fn on_a_refusal_all_others_are_0() {
        let mut table = [0; 3];
        assert_eq!(Reference.judge(9, b"!", 0), Judgement { refusal: 1, ..Judgement::default() });
        assert_eq!(Reference.millimetres(2, 0x7F80_0000), Millimetres { refusal: 30, value: 0 });
        assert_eq!(Reference.millimetres(3, 0x3D80_0000), Millimetres { refusal: 32, value: 0 });
        assert_eq!(Reference.centidegrees(33), Centidegrees { refusal: 50, value: 0 });
        assert_eq!(Reference.open_reading(9, b"!", &mut table), Reading { refusal: 1, ..Reading::default() });
        assert_eq!(Reference.closed_reading(9, b"!", &mut table), Reading { refusal: 1, ..Reading::default() });
    }
}
