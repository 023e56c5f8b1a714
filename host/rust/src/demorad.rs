//! DemoRad command words, both ways (paper 01, "The three wires"; document 001).
//!
//! "The header word: bit 31 RD, bits 20 to 16 the length in words with the header, bits 15 to 0 the code, the rest 0. Byte
//! 0 of each word comes first."

use crate::refusal::{
    Refusal, LENGTH_MISMATCH, LENGTH_ZERO, NO_HEADER_WORD, OUTPUT_TOO_SHORT, REST_BIT_SET, SELECTION_OUT_OF_RANGE,
    UNKNOWN_CODE, WRONG_PAYLOAD_COUNT,
};

/// DspEnTstDat: one word.
pub const ENABLE_TEST_DATA: u32 = 0x6005;
/// DspSetADICfg: one word, 0 to 4.
pub const SET_CONFIG: u32 = 0x6006;
/// DspWrCalDat: one word or more, the first 0 to 3.
pub const WRITE_CALIBRATION: u32 = 0x6007;
/// DspGetSts: any number of words.
pub const GET_STATUS: u32 = 0x6008;
/// DspGetChirp: two words.
pub const GET_CHIRP: u32 = 0x7003;
/// GetVersInf: any number of words.
pub const GET_VERSION: u32 = 0x900E;
/// DspSetSpi: two words or more, the second 0 to 3.
pub const SET_SPI: u32 = 0x9017;

/// The most payload words: a length of 31 counts the header too.
pub const MAX_PAYLOAD: usize = 30;

const RD_BIT: u32 = 1 << 31;
const LENGTH_SHIFT: u32 = 16;
const LENGTH_BITS: u32 = 0x001F_0000;
const CODE_BITS: u32 = 0x0000_FFFF;

/// "Reading gives RD, the code, the payload count and 30 words by value, the unused ones 0."
#[derive(Clone, Copy, Debug, PartialEq, Eq)]
pub struct Command {
    /// Whether a response is asked for.
    pub rd: bool,
    /// One of the seven codes.
    pub code: u32,
    /// The payload words in use.
    pub count: usize,
    /// The payload; what is behind the count is 0 when read and ignored when written.
    pub words: [u32; MAX_PAYLOAD],
}

/// Reads one command from all of `bytes`. Refusals 40 to 46, rising.
///
/// ```
/// use radar_reference::demorad::{read, SET_CONFIG};
///
/// let command = read(&[0x06, 0x60, 0x02, 0x80, 4, 0, 0, 0]).unwrap();
/// assert_eq!((command.rd, command.code, command.count, command.words[0]), (true, SET_CONFIG, 1, 4));
/// ```
pub fn read(bytes: &[u8]) -> Result<Command, Refusal> {
    if bytes.len() < 4 {
        return Err(NO_HEADER_WORD);
    }
    let header = word(bytes, 0);
    if header & !(RD_BIT | LENGTH_BITS | CODE_BITS) != 0 {
        return Err(REST_BIT_SET);
    }
    let length = ((header & LENGTH_BITS) >> LENGTH_SHIFT) as usize;
    if length == 0 {
        return Err(LENGTH_ZERO);
    }
    if bytes.len() != 4 * length {
        return Err(LENGTH_MISMATCH);
    }
    let mut command =
        Command { rd: header & RD_BIT != 0, code: header & CODE_BITS, count: length - 1, words: [0; MAX_PAYLOAD] };
    for index in 0..command.count {
        command.words[index] = word(bytes, index + 1);
    }
    test(&command)?;
    Ok(command)
}

/// Writes a command and answers its bytes. Refusals in the order 44, 45, 46, 51.
pub fn write(command: &Command, output: &mut [u8]) -> Result<usize, Refusal> {
    test(command)?;
    let bytes = 4 * (command.count + 1);
    let output = output.get_mut(..bytes).ok_or(OUTPUT_TOO_SHORT)?;
    let rd = if command.rd { RD_BIT } else { 0 };
    let header = rd | (command.count as u32 + 1) << LENGTH_SHIFT | command.code;
    let words = std::iter::once(&header).chain(&command.words);
    for (place, word) in output.chunks_exact_mut(4).zip(words) {
        place.copy_from_slice(&word.to_le_bytes());
    }
    Ok(bytes)
}

/// What reading and writing refuse alike: 44, 45, 46.
fn test(command: &Command) -> Result<(), Refusal> {
    let count = command.count;
    let count_holds = match command.code {
        ENABLE_TEST_DATA | SET_CONFIG => count == 1,
        WRITE_CALIBRATION => count >= 1,
        GET_CHIRP => count == 2,
        SET_SPI => count >= 2,
        GET_STATUS | GET_VERSION => true,
        _ => return Err(UNKNOWN_CODE),
    };
    if !count_holds || count > MAX_PAYLOAD {
        return Err(WRONG_PAYLOAD_COUNT);
    }
    let selection_holds = match command.code {
        SET_CONFIG => command.words[0] <= 4,
        WRITE_CALIBRATION => command.words[0] <= 3,
        SET_SPI => command.words[1] <= 3,
        _ => true,
    };
    if !selection_holds {
        return Err(SELECTION_OUT_OF_RANGE);
    }
    Ok(())
}

fn word(bytes: &[u8], index: usize) -> u32 {
    let [a, b, c, d] = [0, 1, 2, 3].map(|byte| u32::from(bytes[4 * index + byte]));
    a | b << 8 | c << 16 | d << 24
}

#[cfg(test)]
mod tests {
    use super::*;

    fn command(code: u32, payload: &[u32]) -> Command {
        let mut words = [0; MAX_PAYLOAD];
        words[..payload.len()].copy_from_slice(payload);
        Command { rd: false, code, count: payload.len(), words }
    }

    fn bytes_of(words: &[u32]) -> Vec<u8> {
        words.iter().flat_map(|word| word.to_le_bytes()).collect()
    }

    #[test]
    fn byte_0_comes_first() {
        let mut output = [9; 10];
        let chirp = Command { rd: true, ..command(GET_CHIRP, &[0x0102_0304, 5]) };
        assert_eq!(write(&chirp, &mut output[..2]), Err(51));
        let mut output = [9; 13];
        assert_eq!(write(&chirp, &mut output), Ok(12));
        assert_eq!(output, [0x03, 0x70, 0x03, 0x80, 4, 3, 2, 1, 5, 0, 0, 0, 9]);
        assert_eq!(read(&output[..12]), Ok(chirp));
    }

    #[test]
    fn every_length_of_every_code() {
        for code in [0x6005, 0x6006, 0x6007, 0x6008, 0x7003, 0x900E, 0x9017, 0, 0x6004, 0x6009, 0xFFFF] {
            for count in 0..=30usize {
                let mut words = vec![1; count + 1];
                words[0] = (count as u32 + 1) << 16 | code;
                let expected = match (code, count) {
                    (0x6005 | 0x6006, 1) | (0x7003, 2) | (0x6007, 1..) | (0x9017, 2..) | (0x6008 | 0x900E, _) => {
                        Ok(command(code, &words[1..]))
                    }
                    (0x6005..=0x6007 | 0x7003 | 0x9017, _) => Err(45),
                    _ => Err(44),
                };
                let bytes = bytes_of(&words);
                assert_eq!(read(&bytes), expected, "{code:04X} {count}");
                let mut output = [3; 124];
                let written = write(&command(code, &words[1..]), &mut output);
                match expected {
                    Ok(_) => {
                        assert_eq!(written, Ok(bytes.len()));
                        assert_eq!(output[..bytes.len()], bytes);
                        assert!(output[bytes.len()..].iter().all(|&byte| byte == 3));
                        assert_eq!(write(&expected.unwrap(), &mut output[..bytes.len() - 1]), Err(51));
                    }
                    Err(refusal) => {
                        assert_eq!(written, Err(refusal));
                        assert_eq!(output, [3; 124]);
                    }
                }
            }
        }
    }

    #[test]
    fn selections_at_their_limits() {
        let mut output = [0; 16];
        for (code, limit) in [(SET_CONFIG, 4), (WRITE_CALIBRATION, 3)] {
            for selection in [0, limit, limit + 1, u32::MAX] {
                let expected = if selection <= limit { Ok(8) } else { Err(46) };
                assert_eq!(write(&command(code, &[selection]), &mut output), expected);
                let read = read(&bytes_of(&[2 << 16 | code, selection]));
                assert_eq!(read, expected.map(|_| command(code, &[selection])));
            }
        }
        for selection in [0, 3, 4, u32::MAX] {
            let expected = if selection <= 3 { Ok(12) } else { Err(46) };
            assert_eq!(write(&command(SET_SPI, &[99, selection]), &mut output), expected);
        }
    }

    #[test]
    fn reading_refuses_40_to_46_rising() {
        assert_eq!(read(&[]), Err(40));
        assert_eq!(read(&[0xFF; 3]), Err(40));
        assert_eq!(read(&bytes_of(&[0x0020_0000])), Err(41));
        for bit in 21..31 {
            assert_eq!(read(&bytes_of(&[1 << bit])), Err(41));
        }
        assert_eq!(read(&bytes_of(&[0xFFFF])), Err(42));
        assert_eq!(read(&bytes_of(&[2 << 16 | 0xFFFF])), Err(43));
        assert_eq!(read(&bytes_of(&[0x0001_FFFF, 0])), Err(43));
        assert_eq!(read(&[&bytes_of(&[0x0001_6008]), [0].as_slice()].concat()), Err(43));
        assert_eq!(read(&bytes_of(&[0x0001_FFFF])), Err(44));
        assert_eq!(read(&bytes_of(&[0x0001_6006])), Err(45));
        assert_eq!(read(&bytes_of(&[0x0002_6006, 5])), Err(46));
        assert_eq!(read(&bytes_of(&[0x8002_6006, 4])), Ok(Command { rd: true, ..command(SET_CONFIG, &[4]) }));
        assert_eq!(read(&vec![0; 2_000_000]), Err(42));
    }

    #[test]
    fn writing_refuses_in_the_order_44_45_46_51() {
        let over = |code| Command { count: 31, ..command(code, &[9, 9]) };
        assert_eq!(write(&over(1), &mut []), Err(44));
        assert_eq!(write(&over(0x1_6008), &mut []), Err(44));
        assert_eq!(write(&over(GET_STATUS), &mut []), Err(45));
        assert_eq!(write(&over(SET_SPI), &mut []), Err(45));
        assert_eq!(write(&Command { count: usize::MAX, ..over(SET_SPI) }, &mut []), Err(45));
        assert_eq!(write(&command(SET_SPI, &[9, 9]), &mut []), Err(46));
        assert_eq!(write(&command(SET_SPI, &[9, 3]), &mut []), Err(51));
    }

    #[test]
    fn words_behind_the_count_are_ignored() {
        let mut output = [0; 8];
        let dirty = Command { count: 1, ..command(SET_CONFIG, &[2, 0xDEAD_BEEF]) };
        assert_eq!(write(&dirty, &mut output), Ok(8));
        assert_eq!(read(&output), Ok(command(SET_CONFIG, &[2])));
    }
}
