//! What libFuzzer calls: the gateway library against the independent reader on one capture.
//!
//! Byte 0 of an input chooses the dialect, byte 1 the place of a split, bytes 2 to 7 where the feeder's calls are cut, bytes 8
//! and 9 the sizes of its carry and table, bytes 10 to 13 are an edition, bytes 14 to 17 a distance; the capture is the rest.
//! Compared are the judgement at every place, both readings with tables of eight sizes, demand 3 at the split, each four
//! bytes as the bits of a coordinate, the field readers on every frame and on the capture, each by both editions and by the
//! input's, whether anyone is close in mmWave by these editions within the input's distance and those about which the answer turns,
//! and the feeder on the capture as a line and with made-up streams. A difference is printed and ends the run, and libFuzzer
//! keeps the input.

#[cfg(not(feature = "wrong"))]
use radar_reference::compare::feeding::check_feeding;
#[cfg(not(feature = "wrong"))]
use radar_reference::compare::fields::check_fields;
#[cfg(not(feature = "wrong"))]
use radar_reference::compare::proximity::check_proximity;
use radar_reference::compare::{check_capture, check_millimetres, check_split};
#[cfg(not(feature = "wrong"))]
use radar_reference::judgement::MMWAVE;

#[cfg(not(feature = "wrong"))]
use radar_reference::gateway::Gateway as Tried;
#[cfg(feature = "wrong")]
use wrong::Wrong as Tried;

/// The bytes before the capture.
const CHOICES: usize = 18;

/// The function that libFuzzer calls with each input.
///
/// # Safety
///
/// `data` points to `size` readable bytes.
#[no_mangle]
pub unsafe extern "C" fn LLVMFuzzerTestOneInput(data: *const u8, size: usize) -> i32 {
    if size >= CHOICES {
        // SAFETY: what the caller promises.
        let input = unsafe { std::slice::from_raw_parts(data, size) };
        let (choices, capture) = input.split_at(CHOICES);
        if let Err(what) = compare(choices, capture) {
            panic!("{what}\nchoices {choices:02x?}, {} bytes: {capture:02x?}", capture.len());
        }
    }
    0
}

fn compare(choices: &[u8], capture: &[u8]) -> Result<(), String> {
    let dialect = u32::from(choices[0] % 3);
    let places: Vec<usize> = choices[1..8].iter().map(|&part| capture.len() * usize::from(part) / 255).collect();
    let edition = word(&choices[10..]);
    for float in capture.chunks_exact(4) {
        [1, 2, edition].into_iter().try_for_each(|edition| check_millimetres(&Tried, edition, word(float)))?;
    }
    check_capture(&Tried, dialect, capture)?;
    #[cfg(not(feature = "wrong"))]
    check_fields(&Tried, dialect, edition, capture).map_err(|difference| difference.what)?;
    #[cfg(not(feature = "wrong"))]
    if dialect == MMWAVE {
        check_proximity(&Tried, edition, word(&choices[14..]), capture)?;
    }
    #[cfg(not(feature = "wrong"))]
    check_feeding(&Tried, dialect, capture, &places[1..], usize::from(choices[8]), usize::from(choices[9]))?;
    // Last, because it ends with judgements: libFuzzer tries the operands of the last comparisons.
    check_split(&Tried, dialect, capture, places[0])
}

/// Four bytes, the least significant first.
fn word(bytes: &[u8]) -> u32 {
    u32::from_le_bytes([bytes[0], bytes[1], bytes[2], bytes[3]])
}

#[cfg(feature = "wrong")]
mod wrong {
    use radar_reference::abi::{Centidegrees, Judgement, Millimetres, Reading, Reference, Subject, BAD};

    /// The independent reader, but it does not take 254 for a character in the gain of a U frame.
    pub struct Wrong;

    impl Subject for Wrong {
        fn judge(&self, dialect: u32, bytes: &[u8], place: usize) -> Judgement {
            let answer = Reference.judge(dialect, bytes, place);
            if answer.kind == 5 && bytes[place + 3] == 254 {
                return Judgement { state: BAD, reason: 13, ..Judgement::default() };
            }
            answer
        }

        fn millimetres(&self, edition: u32, bits: u32) -> Millimetres {
            Reference.millimetres(edition, bits)
        }

        fn centidegrees(&self, character: u8) -> Centidegrees {
            Reference.centidegrees(character)
        }

        fn open_reading(&self, dialect: u32, bytes: &[u8], table: &mut [u32]) -> Reading {
            Reference.open_reading(dialect, bytes, table)
        }

        fn closed_reading(&self, dialect: u32, bytes: &[u8], table: &mut [u32]) -> Reading {
            Reference.closed_reading(dialect, bytes, table)
        }
    }
}
