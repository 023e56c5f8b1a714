//! The feeder's answer in its C form, and what has that face.

use crate::feeder;
pub use crate::feeder::Stream;

use super::Reference;

/// `struct vq_fed`: on a refusal no rows, and the stream as it was handed in.
#[repr(C)]
#[derive(Clone, Copy, Debug, Default, PartialEq, Eq)]
#[allow(missing_docs)]
pub struct Fed {
    pub refusal: u32,
    pub rows: u64,
    pub stream: Stream,
}

/// What can be compared: the feeder.
pub trait FeedSubject {
    /// `vq_feed`.
    fn feed(&self, dialect: u32, stream: Stream, carry: &mut [u8], bytes: &[u8], table: &mut [u32]) -> Fed;
}

impl FeedSubject for Reference {
    fn feed(&self, dialect: u32, stream: Stream, carry: &mut [u8], bytes: &[u8], table: &mut [u32]) -> Fed {
        match feeder::feed(dialect, stream, carry, bytes, table) {
            Ok(feeder::Fed { rows, stream }) => Fed { refusal: 0, rows: rows as u64, stream },
            Err(refusal) => Fed { refusal, rows: 0, stream },
        }
    }
}

#[cfg(test)]
mod tests {
    use super::*;
    use std::mem::{align_of, offset_of, size_of};

    #[test]
    fn the_layout_is_that_of_the_header() {
        assert_eq!((size_of::<Stream>(), align_of::<Stream>()), (16, 8));
        assert_eq!((size_of::<Fed>(), align_of::<Fed>()), (32, 8));
        assert_eq!((offset_of!(Fed, rows), offset_of!(Fed, stream)), (8, 16));
    }

    #[test]
    fn on_a_refusal_the_stream_stays() {
        let stream = Stream { place: 7, waiting: 1 };
        let (mut carry, mut table) = (*b"!", [5; 3]);
        let refused = Reference.feed(9, stream, &mut carry, b"E0000\r\n", &mut table);
        assert_eq!(refused, Fed { refusal: 1, rows: 0, stream });
        assert_eq!((carry, table), (*b"!", [5; 3]));
    }
}
