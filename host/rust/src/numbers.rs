//! The number rules (paper 01, "Numbers"; paper 02 (iv)).

use std::cmp::Ordering;

use crate::refusal::{Refusal, NOT_FINITE, NO_ENCODING, TOO_FAR, UNKNOWN_EDITION};
use crate::sirad::is_character;

/// The rule for exact halves, "by the edition named".
#[derive(Clone, Copy, Debug, PartialEq, Eq)]
enum Halves {
    /// Edition 1: "halves away from zero", of accuracy "halves up".
    Away,
    /// Edition 2: "halves to the even neighbour".
    ToEven,
}

/// The editions that have a rule.
pub const EDITIONS: [u32; 2] = [1, 2];

/// "Refusals: 32 for an edition other than 1 or 2."
fn halves(edition: u32) -> Result<Halves, Refusal> {
    match edition {
        1 => Ok(Halves::Away),
        2 => Ok(Halves::ToEven),
        _ => Err(UNKNOWN_EDITION),
    }
}

/// The whole number nearest to the fraction, "halves" being those of magnitudes: away from zero is up.
fn nearest(halves: Halves, numerator: u128, denominator: u128) -> u128 {
    let (whole, rest) = (numerator / denominator, numerator % denominator);
    match ((2 * rest).cmp(&denominator), halves) {
        (Ordering::Less, _) => whole,
        (Ordering::Greater, _) | (Ordering::Equal, Halves::Away) => whole + 1,
        (Ordering::Equal, Halves::ToEven) => whole + whole % 2,
    }
}

/// "A byte c from 34 to 254 (else 50) means c - 174 dB."
pub fn decibels(character: u8) -> Result<i32, Refusal> {
    if is_character(character) {
        Ok(i32::from(character) - 174)
    } else {
        Err(NO_ENCODING)
    }
}

/// "As a phase it is the whole number of hundredths of a degree nearest to 1800(c - 144)/11. A tie can't occur."
pub fn phase_hundredths(character: u8) -> Result<i32, Refusal> {
    if !is_character(character) {
        return Err(NO_ENCODING);
    }
    let numerator = 1800 * (i32::from(character) - 144);
    // 11 is odd, so any rule for halves will do.
    let magnitude = nearest(Halves::Away, numerator.unsigned_abs().into(), 11) as i32;
    Ok(magnitude * numerator.signum())
}

/// "Accuracy a (tenths of a millimetre) gives the nearest whole millimetre", halves by the edition. Refuses 32.
///
/// ```
/// use radar_reference::numbers::accuracy_millimetres;
///
/// assert_eq!(accuracy_millimetres(1, 25), Ok(3));
/// assert_eq!(accuracy_millimetres(2, 25), Ok(2));
/// ```
pub fn accuracy_millimetres(edition: u32, tenths: u32) -> Result<u32, Refusal> {
    Ok(nearest(halves(edition)?, tenths.into(), 10) as u32)
}

/// The greatest magnitude in metres that has an answer.
pub const MAX_METRES: u128 = 1000;

/// A finite float taken apart: its value is `significand` times two to the `exponent`, negated if `negative`.
#[derive(Clone, Copy, Debug, PartialEq, Eq)]
pub struct Parts {
    /// The sign bit.
    pub negative: bool,
    /// Below 2^24.
    pub significand: u32,
    /// From -149 to 104.
    pub exponent: i32,
}

/// The parts of a float's 32 bits; none if it is infinite or no number.
pub fn parts(bits: u32) -> Option<Parts> {
    let negative = bits >> 31 == 1;
    let fraction = bits & 0x007F_FFFF;
    match (bits >> 23) & 0xFF {
        255 => None,
        0 => Some(Parts { negative, significand: fraction, exponent: -149 }),
        biased => Some(Parts { negative, significand: fraction | 0x0080_0000, exponent: biased as i32 - 150 }),
    }
}

/// A coordinate in millimetres: "the whole number nearest to 1000 times its exact value", halves by the edition, "both zeros
/// giving 0". Refuses 32, then 30 for infinite or no number, 31 for a magnitude over 1000 m.
///
/// ```
/// use radar_reference::numbers::millimetres;
///
/// assert_eq!(millimetres(1, 0.0625f32.to_bits()), Ok(63));
/// assert_eq!(millimetres(2, 0.0625f32.to_bits()), Ok(62));
/// assert_eq!(millimetres(1, 1000.5f32.to_bits()), Err(31));
/// assert_eq!(millimetres(3, 1000.5f32.to_bits()), Err(32));
/// ```
pub fn millimetres(edition: u32, bits: u32) -> Result<i32, Refusal> {
    let halves = halves(edition)?;
    let Parts { negative, significand, exponent } = parts(bits).ok_or(NOT_FINITE)?;
    let magnitude = magnitude_millimetres(halves, u128::from(significand), exponent)?;
    Ok(if negative { -magnitude } else { magnitude })
}

/// 1000 s 2^e for e below 0 is 1000 s / d with d = 2^-e.
fn magnitude_millimetres(halves: Halves, significand: u128, exponent: i32) -> Result<i32, Refusal> {
    if exponent >= 0 {
        // A float with such an exponent is normal: at least 2^23 metres.
        return Err(TOO_FAR);
    }
    if exponent < -100 {
        // 1000 s is below 2^34, less than half of d.
        return Ok(0);
    }
    let divisor = 1u128 << -exponent;
    if significand > MAX_METRES * divisor {
        return Err(TOO_FAR);
    }
    Ok(nearest(halves, 1000 * significand, divisor) as i32)
}

#[cfg(test)]
mod tests {
    use super::*;
    use crate::generate::floats::wrong_editions;

    /// A second way: an f32 times 1000 is exact in an f64 (24 + 10 bits), `round` takes halves away from zero and
    /// `round_ties_even` to the even neighbour.
    fn by_f64(edition: u32, bits: u32) -> Result<i32, Refusal> {
        let metres = f64::from(f32::from_bits(bits));
        if !metres.is_finite() {
            return Err(NOT_FINITE);
        }
        if metres.abs() > 1000.0 {
            return Err(TOO_FAR);
        }
        let exact = metres * 1000.0;
        Ok(if edition == 1 { exact.round() } else { exact.round_ties_even() } as i32)
    }

    /// A third way, over whole numbers without a division: |2 n 2^149 - 2 1000 s 2^(e + 149)| is at most 2^149, in
    /// numbers of 320 bits, and at equality n is the one away from zero, or the even one.
    fn is_nearest(edition: u32, bits: u32, answer: i32) -> bool {
        let parts = parts(bits).unwrap();
        let exact = Wide::from(2000 * u64::from(parts.significand)).shifted((parts.exponent + 149) as u32);
        let doubled = Wide::from(2 * u64::from(answer.unsigned_abs())).shifted(149);
        let unit = Wide::from(1).shifted(149);
        let sign_holds = answer == 0 || (answer < 0) == parts.negative;
        // doubled - unit <= exact <= doubled + unit.
        let near = !exact.plus(unit).is_below(doubled) && !doubled.plus(unit).is_below(exact);
        let half_holds = match edition {
            1 => exact.is_below(doubled.plus(unit)),
            _ => answer % 2 == 0 || (doubled.is_below(exact.plus(unit)) && exact.is_below(doubled.plus(unit))),
        };
        sign_holds && near && half_holds
    }

    /// A whole number of 320 bits, least significant word first.
    #[derive(Clone, Copy)]
    struct Wide([u32; 10]);

    impl Wide {
        fn from(value: u64) -> Wide {
            let mut words = [0; 10];
            words[0] = value as u32;
            words[1] = (value >> 32) as u32;
            Wide(words)
        }

        fn shifted(mut self, bits: u32) -> Wide {
            for _ in 0..bits {
                self = self.plus(self);
            }
            self
        }

        fn plus(self, other: Wide) -> Wide {
            let mut words = [0; 10];
            let mut carry = 0;
            for (index, word) in words.iter_mut().enumerate() {
                let sum = u64::from(self.0[index]) + u64::from(other.0[index]) + carry;
                *word = sum as u32;
                carry = sum >> 32;
            }
            assert_eq!(carry, 0);
            Wide(words)
        }

        fn is_below(self, other: Wide) -> bool {
            self.0.iter().rev().lt(other.0.iter().rev())
        }
    }

    fn check(edition: u32, bits: u32) {
        assert_eq!(millimetres(edition, bits), by_f64(edition, bits), "edition {edition}, {bits:08X}");
    }

    #[test]
    fn decibels_of_all_bytes() {
        for byte in 0..=255u8 {
            let expected = if (34..=254).contains(&byte) { Ok(i32::from(byte) - 174) } else { Err(50) };
            assert_eq!(decibels(byte), expected);
        }
        assert_eq!(decibels(34), Ok(-140));
        assert_eq!(decibels(254), Ok(80));
    }

    #[test]
    fn phase_of_all_bytes_is_the_nearest() {
        for byte in 0..=255u8 {
            let Ok(phase) = phase_hundredths(byte) else {
                assert!(!(34..=254).contains(&byte));
                continue;
            };
            assert!((34..=254).contains(&byte));
            // |11 n - 1800 (c - 144)| is less than a half of 11.
            let distance = (11 * phase - 1800 * (i32::from(byte) - 144)).abs();
            assert!(2 * distance < 11, "{byte}");
        }
        assert_eq!(phase_hundredths(34), Ok(-18_000));
        assert_eq!(phase_hundredths(144), Ok(0));
        assert_eq!(phase_hundredths(254), Ok(18_000));
    }

    #[test]
    fn accuracy_of_all_values_is_the_nearest() {
        for tenths in 0..=65_535u32 {
            let [first, second] = EDITIONS.map(|edition| accuracy_millimetres(edition, tenths).unwrap());
            assert!(10 * first <= tenths + 5 && tenths + 5 < 10 * (first + 1), "{tenths}");
            let to_even = if tenths % 10 == 5 { first - first % 2 } else { first };
            assert_eq!(second, to_even, "{tenths}");
        }
        assert_eq!([5, 15, 25, 35].map(|tenths| accuracy_millimetres(1, tenths).unwrap()), [1, 2, 3, 4]);
        assert_eq!([5, 15, 25, 35].map(|tenths| accuracy_millimetres(2, tenths).unwrap()), [0, 2, 2, 4]);
        assert_eq!(EDITIONS.map(|edition| accuracy_millimetres(edition, 512)), [Ok(51); 2]);
        assert_eq!(EDITIONS.map(|edition| accuracy_millimetres(edition, 65_535)), [Ok(6_554); 2]);
    }

    #[test]
    fn another_edition_is_refused_first() {
        for edition in wrong_editions() {
            assert_eq!(accuracy_millimetres(edition, 5), Err(32));
            for bits in [0, 0x3D80_0000, 0x447A_0000, 0x447A_0001, 0x7F80_0000, 0xFFC0_0000] {
                assert_eq!(millimetres(edition, bits), Err(32), "{edition}, {bits:08X}");
            }
        }
    }

    #[test]
    fn the_argument_of_the_demands() {
        // 0.0625 m is 62.5 mm.
        assert_eq!(EDITIONS.map(|edition| millimetres(edition, 0.0625f32.to_bits())), [Ok(63), Ok(62)]);
        assert_eq!(EDITIONS.map(|edition| millimetres(edition, (-0.0625f32).to_bits())), [Ok(-63), Ok(-62)]);
    }

    /// 1000 v is a whole number and a half exactly if v is an odd number of sixteenths. One step away the nearest is on that
    /// side, in both editions.
    #[test]
    fn all_halves_and_their_neighbours() {
        for sixteenths in (1..16_000u32).step_by(2) {
            let bits = (sixteenths as f32 / 16.0).to_bits();
            let below = 125 * sixteenths as i32 / 2;
            for (edition, half) in [(1, below + 1), (2, below + below % 2)] {
                for (bits, answer) in [(bits - 1, below), (bits, half), (bits + 1, below + 1)] {
                    assert_eq!(millimetres(edition, bits), Ok(answer));
                    assert_eq!(millimetres(edition, bits | 1 << 31), Ok(-answer));
                }
            }
        }
    }

    /// The answer of either edition is nearest by the third way, and no other number is.
    fn check_exactly(bits: u32) {
        for edition in EDITIONS {
            check(edition, bits);
            if let Ok(answer) = millimetres(edition, bits) {
                let nearest = [answer - 1, answer, answer + 1].map(|number| is_nearest(edition, bits, number));
                assert_eq!(nearest, [false, true, false], "edition {edition}, {bits:08X}");
            }
        }
    }

    #[test]
    fn every_exponent_both_signs() {
        for exponent in 0..=255u32 {
            for fraction in [0, 1, 2, 0x3F_FFFF, 0x40_0000, 0x40_0001, 0x7A_0000, 0x7F_FFFE, 0x7F_FFFF] {
                for sign in [0, 1 << 31] {
                    check_exactly(sign | exponent << 23 | fraction);
                }
            }
        }
    }

    #[test]
    fn both_sides_of_every_half() {
        for below in (0..1_000_000u32).step_by(7) {
            let near = ((f64::from(below) + 0.5) / 1000.0) as f32;
            for bits in near.to_bits() - 1..=near.to_bits() + 1 {
                for edition in EDITIONS {
                    check(edition, bits);
                    check(edition, bits | 1 << 31);
                }
            }
        }
    }

    #[test]
    fn halves_are_nearest_exactly() {
        for sixteenths in (1..16_000u32).step_by(98) {
            let bits = (sixteenths as f32 / 16.0).to_bits();
            for bits in bits - 1..=bits + 1 {
                check_exactly(bits);
                check_exactly(bits | 1 << 31);
            }
        }
    }

    #[test]
    fn the_limit_is_on_the_exact_value() {
        for (edition, sign) in EDITIONS.into_iter().flat_map(|edition| [(edition, 0), (edition, 1u32 << 31)]) {
            let answer = if sign == 0 { 1_000_000 } else { -1_000_000 };
            assert_eq!(millimetres(edition, sign | 0x447A_0000), Ok(answer));
            assert_eq!(millimetres(edition, sign | 0x4479_FFFF), Ok(answer));
            assert_eq!(millimetres(edition, sign | 0x447A_0001), Err(TOO_FAR));
            assert_eq!(millimetres(edition, sign | 0x7F7F_FFFF), Err(TOO_FAR));
            for not_finite in [0x7F80_0000, 0x7F80_0001, 0x7FC0_0000, 0x7FFF_FFFF] {
                assert_eq!(millimetres(edition, sign | not_finite), Err(NOT_FINITE));
            }
            assert_eq!(millimetres(edition, sign), Ok(0));
            assert_eq!(millimetres(edition, sign | 1), Ok(0));
        }
    }

    /// All 2^32 floats in both editions; run it with `cargo test --release -- --ignored every_float`.
    #[test]
    #[ignore = "takes a minute or two"]
    fn every_float() {
        for bits in 0..=u32::MAX {
            EDITIONS.into_iter().for_each(|edition| check(edition, bits));
        }
    }
}
