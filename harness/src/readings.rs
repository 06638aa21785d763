//! Readings as the radio board hands them over: with signs by which the pairing is
//! known, and with halves by which the bits are.

use std::collections::BTreeSet;

use crate::independent::halves::COUNTED;
use crate::random::Random;

/// The largest reading, and the largest margin, in degrees.
pub const LARGEST: f32 = 45.0;
pub const LARGEST_MARGIN: f32 = 90.0;

/// The bits that lead a call: every other one is 1.
pub const LEAD: usize = COUNTED / 2;

/// A first and a second half.
pub type Halves = [f32; 2];

/// What is so many units away from a number above zero: its neighbours have the patterns
/// beside its own.
pub fn units_from(number: f32, units: i32) -> f32 {
    f32::from_bits(number.to_bits().wrapping_add_signed(units))
}

/// A size above zero, drawn by its pattern: tiny ones come as often as large ones.
pub fn any_size(random: &mut Random) -> f32 {
    f32::from_bits(1 + random.below(LARGEST.to_bits() as usize) as u32)
}

/// The number or its negative.
pub fn with_any_sign(random: &mut Random, number: f32) -> f32 {
    if random.below(2) == 0 {
        number
    } else {
        -number
    }
}

/// A reading of any size and sign, sometimes a zero.
pub fn any_reading(random: &mut Random) -> f32 {
    let size = if random.below(16) == 0 { 0.0 } else { any_size(random) };
    with_any_sign(random, size)
}

/// A reading that is anywhere in the range with the same chance.
pub fn even_reading(random: &mut Random) -> f32 {
    let part = random.below(1 << 24) as f32 / (1 << 24) as f32;
    with_any_sign(random, LARGEST * part)
}

/// Exponents as a pattern has them: of the smallest normal numbers, of those that are
/// lost or half lost beside the largest reading, and of 1 and what is around it.
const EXPONENTS: [u32; 22] = [
    1, 2, 3, 24, 25, 26, 64, 100, 103, 104, 107, 108, 109, 110, 117, 126, 127, 128, 129, 130, 131,
    132,
];

/// Subnormal numbers: the smallest, those around the middle and the largest.
const SUBNORMAL: [u32; 8] = [1, 2, 3, 0x3F_FFFF, 0x40_0000, 0x40_0001, 0x7F_FFFE, 0x7F_FFFF];

/// Some two hundred readings at which something may go wrong, each with its negative:
/// zero, subnormal numbers, powers of 2, parts of the largest reading, odd multiples of
/// half its unit, neighbours of all these, and some at random.
pub fn special(random: &mut Random) -> Vec<f32> {
    let half_unit = f32::EPSILON * 16.0;
    let others = [LARGEST, LARGEST / 2.0, LARGEST / 4.0, 44.0, 3.0 * half_unit, 5.0 * half_unit];
    let powers = EXPONENTS.map(|exponent| f32::from_bits(exponent << 23));
    let around = |number: f32| [-2, -1, 0, 1].map(|units| units_from(number, units));
    let normal = powers.into_iter().chain(others).flat_map(around);
    let subnormal = SUBNORMAL.into_iter().chain([0]).map(f32::from_bits);
    let any: Vec<f32> = (0..20).map(|_| any_size(random)).collect();
    let sizes: BTreeSet<u32> = normal.chain(subnormal).chain(any).map(f32::to_bits).collect();
    let sizes = sizes.into_iter().map(f32::from_bits).filter(|&size| size <= LARGEST);
    sizes.flat_map(|size| [size, -size]).collect()
}

/// So many readings, none of them 0. Of the first 64 exactly so many pairs are of
/// opposite sign in either pairing: there the sign changes from one to the next.
pub fn with_counts(random: &mut Random, counts: [usize; 2], len: usize) -> Vec<f32> {
    let changes = [random.places(counts[0], 32), random.places(counts[1], 31)];
    let mut sign = with_any_sign(random, 1.0);
    let reading = |place: usize| {
        let reading = any_size(random) * sign;
        let changed = match place {
            0..63 => changes[place % 2] >> (place / 2) & 1 == 1,
            _ => random.below(2) == 1,
        };
        sign = if changed { -sign } else { sign };
        reading
    };
    (0..len).map(reading).collect()
}

/// These halves behind 32 others, by which the pairing is clear: their signs are
/// opposite within each pair and the same from one pair to the next. No margin makes
/// them doubtful. In pairing 1 a reading without a sign stands before all.
pub fn led(pairing: u8, halves: &[Halves]) -> Vec<f32> {
    let stray = [0.0];
    let lead = [[LARGEST, -LARGEST], [-LARGEST, LARGEST]].repeat(LEAD / 2);
    [&stray[..pairing.into()], lead.as_flattened(), halves.as_flattened()].concat()
}

/// What is decided of these leading halves.
pub fn lead_bits(polarity: u8) -> Vec<u8> {
    [1 ^ polarity, polarity].repeat(LEAD / 2)
}

/// Halves that give a bit under a polarity: they are drawn until they differ by more
/// than the margin.
pub fn clear_halves(random: &mut Random, bit: u8, polarity: u8, margin: f32) -> Halves {
    loop {
        let [one, other] = [(); 2].map(|()| even_reading(random));
        let (low, high) = (one.min(other), one.max(other));
        if high - low > margin {
            return if bit == polarity { [low, high] } else { [high, low] };
        }
    }
}

/// Halves that differ by less than a margin, if they differ.
pub fn doubtful_halves(random: &mut Random, margin: f32) -> Halves {
    loop {
        let first = even_reading(random);
        let part = random.below(1_001) as f32 / 1_000.0;
        let second = first + with_any_sign(random, margin * part);
        if second.abs() <= LARGEST && (first - second).abs() < margin {
            return [first, second];
        }
    }
}
