//! What the listing programs print (paper 01, "The listing"), and the same lines for vital-signs packets.

use crate::reading::{closed_reading, ROW};
use crate::refusal::{LISTING_TOO_LONG, MAX_LISTING_BYTES};
use crate::sirad::IDENTIFIERS;
use crate::{mmwave, vital_signs};

/// The output of `radarlist` (SiRad) or `packetlist` (mmWave) on this input, each line with its line feed. No listing program
/// reads vital signs: there it is what the C host's program prints of them.
pub fn listing(dialect: u32, bytes: &[u8]) -> String {
    if bytes.len() > MAX_LISTING_BYTES {
        return format!("refused\t{LISTING_TOO_LONG}\n");
    }
    // No frame has fewer than 8 bytes.
    let mut table = vec![0; ROW * (bytes.len() / 8)];
    let reading = closed_reading(dialect, bytes, &mut table).expect("a legal dialect and a short input");
    let mut lines = String::from("kind\tplace\tlength\n");
    for row in table.chunks_exact(ROW).take(reading.rows) {
        lines += &format!("{}\t{}\t{}\n", letter(row[2]), row[0], row[1]);
    }
    lines + &format!("end\t{}\t{}\n", bytes.len(), reading.skipped)
}

/// The SiRad identifier of a kind; M for an mmWave packet, V for a vital-signs packet.
pub fn letter(kind: u32) -> char {
    match kind {
        mmwave::PACKET => 'M',
        vital_signs::PACKET => 'V',
        _ => IDENTIFIERS[kind as usize - 1] as char,
    }
}

#[cfg(test)]
mod tests {
    use super::*;
    use crate::judgement::{DIALECTS, SIRAD};

    #[test]
    fn the_papers_example_of_25_bytes() {
        let bytes = b"!E0000\r\n !E00G0\r\n!E0001\r\n";
        assert_eq!(bytes.len(), 25);
        assert_eq!(listing(SIRAD, bytes), "kind\tplace\tlength\nE\t0\t8\nE\t17\t8\nend\t25\t9\n");
    }

    #[test]
    fn an_empty_and_a_long_input() {
        for dialect in DIALECTS {
            assert_eq!(listing(dialect, b""), "kind\tplace\tlength\nend\t0\t0\n");
            assert_eq!(listing(dialect, &vec![0; 65_537]), "refused\t4\n");
            assert_eq!(listing(dialect, &vec![0; 65_536]), "kind\tplace\tlength\nend\t65536\t65536\n");
        }
    }

    #[test]
    fn letters_of_the_kinds() {
        assert_eq!([1, 2, 3, 4, 5, 6, 16, 17].map(letter), ['R', 'P', 'C', 'T', 'U', 'E', 'M', 'V']);
    }
}
