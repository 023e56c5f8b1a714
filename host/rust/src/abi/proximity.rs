//! The answer to whether anyone is close in its C form, and what has that face.

use crate::proximity::{self, Located};

use super::Reference;

/// `struct vq_closeness`: on a refusal and with a no all others 0.
#[repr(C)]
#[derive(Clone, Copy, Debug, Default, PartialEq, Eq)]
#[allow(missing_docs)]
pub struct Closeness {
    pub refusal: u32,
    pub close: u32,
    pub place: u64,
    pub index: u64,
}

/// What can be compared: whether anyone is close.
pub trait ProximitySubject {
    /// `vq_anyone_close`.
    fn anyone_close(&self, dialect: u32, edition: u32, distance: u32, bytes: &[u8]) -> Closeness;
}

impl ProximitySubject for Reference {
    fn anyone_close(&self, dialect: u32, edition: u32, distance: u32, bytes: &[u8]) -> Closeness {
        match proximity::anyone_close(dialect, edition, distance, bytes) {
            Ok(Some(Located { place, index, .. })) => {
                Closeness { refusal: 0, close: 1, place: place as u64, index: u64::from(index) }
            }
            Ok(None) => Closeness::default(),
            Err(refusal) => Closeness { refusal, ..Closeness::default() },
        }
    }
}

#[cfg(test)]
mod tests {
    use super::*;
    use std::mem::{align_of, offset_of, size_of};

    #[test]
    fn the_layout_is_that_of_the_header() {
        assert_eq!((size_of::<Closeness>(), align_of::<Closeness>()), (24, 8));
        assert_eq!(
            (offset_of!(Closeness, close), offset_of!(Closeness, place), offset_of!(Closeness, index)),
            (4, 8, 16)
        );
    }

    #[test]
    fn on_a_refusal_all_others_are_0() {
        assert_eq!(Reference.anyone_close(0, 1, 0, b""), Closeness { refusal: 1, ..Closeness::default() });
        assert_eq!(Reference.anyone_close(1, 1, 0, b""), Closeness::default());
    }
}
