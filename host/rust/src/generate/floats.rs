//! The bits of floats and the numbers of editions, for the millimetre rule.

use super::random::Random;

/// The 32 bits of a float: any, or with a fraction at an edge, or near a half, or near the limit.
pub fn float_bits(random: &mut Random) -> u32 {
    let sign = random.word() & 1 << 31;
    let value = match random.below(6) {
        0 => return random.word(),
        1 => return sign | (random.below(256) as u32) << 23 | random.pick(&EDGE_FRACTIONS),
        // An odd number of sixteenths of a metre is a whole number of millimetres and a half.
        2 => (2 * random.below(8000) + 1) as f32 / 16.0,
        3 => ((random.below(1_000_000) as f64 + 0.5) / 1000.0) as f32,
        4 => 1000.0,
        _ => random.within(1, 1_000_000) as f32 / 1000.0,
    };
    // That float or one close by.
    sign | (value.to_bits() + 2 - random.below(5) as u32)
}

/// A float whose thousandfold is a whole number and a half: an odd number of sixteenths, within 1000 metres.
pub fn float_half(random: &mut Random) -> f32 {
    (2 * random.below(16_000) + 1) as f32 / 16.0 - 1000.0
}

const EDGE_FRACTIONS: [u32; 10] =
    [0, 1, 2, 0x3F_FFFF, 0x40_0000, 0x40_0001, 0x7A_0000, 0x7A_0001, 0x7F_FFFE, 0x7F_FFFF];

/// The floats that every run tries: all exponents with fractions at the edges, all ties and their neighbours, the limit,
/// each with both signs.
pub fn float_edges() -> Vec<u32> {
    let mut magnitudes = Vec::new();
    for exponent in 0..=255u32 {
        magnitudes.extend(EDGE_FRACTIONS.map(|fraction| exponent << 23 | fraction));
        magnitudes.extend((0..23).map(|bit| exponent << 23 | 1 << bit));
    }
    for sixteenths in (1..16_000u32).step_by(2) {
        let tie = (sixteenths as f32 / 16.0).to_bits();
        magnitudes.extend(tie - 2..=tie + 2);
    }
    let limit = 1000f32.to_bits();
    magnitudes.extend(limit - 64..=limit + 64);
    magnitudes.iter().flat_map(|&bits| [bits, bits | 1 << 31]).collect()
}

/// Editions that are none: those beside 1 and 2, and numbers of every width whose low bits are those of 1 or 2.
pub fn wrong_editions() -> Vec<u32> {
    let wide = (2..32).flat_map(|bit| [1 << bit, 1 << bit | 1, 1 << bit | 2]);
    [0, 3, 255, 0xFFFF, u32::MAX - 1, u32::MAX].into_iter().chain(wide).collect()
}

/// An edition that is none.
pub fn wrong_edition(random: &mut Random) -> u32 {
    match random.below(6) {
        0 => 0,
        1 => 3,
        2 => random.word() | 4,
        _ => random.pick(&wrong_editions()),
    }
}

#[cfg(test)]
mod tests {
    use super::*;
    use crate::numbers::EDITIONS;

    #[test]
    fn halves_are_exact_and_of_both_signs() {
        let mut random = Random::new(1);
        let halves: Vec<f32> = (0..2000).map(|_| float_half(&mut random)).collect();
        assert!(halves.iter().all(|half| half.abs() < 1000.0 && (f64::from(*half) * 1000.0).fract().abs() == 0.5));
        assert!(halves.iter().any(|half| *half < -900.0) && halves.iter().any(|half| *half > 900.0));
    }

    #[test]
    fn wrong_editions_are_wrong() {
        let mut random = Random::new(1);
        let some = (0..2000).map(|_| wrong_edition(&mut random));
        assert!(some.chain(wrong_editions()).all(|edition| !EDITIONS.contains(&edition)));
        assert!([0, 3, 4, 255, 257, 1 << 31, u32::MAX].iter().all(|edition| wrong_editions().contains(edition)));
    }
}
