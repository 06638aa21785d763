//! The remainder of a bit string, by long division as one does it on paper, and of
//! two strings joined.

use super::{digits_of, number_of, GENERATOR};
use crate::refusals::{NOT_A_BIT, NOT_A_REMAINDER, STRING_TOO_LONG};

/// The longest string, and the longest second of two.
pub const STRING: usize = 65_536;

/// The largest remainder.
pub const LARGEST: u16 = 8_191;

/// Digits of a remainder.
const DIGITS: usize = 13;

/// What is left on paper: the string is written out, the generator is taken off
/// under every leading 1, and the last thirteen digits stay.
pub fn left(string: &[u8]) -> u16 {
    let generator: [u8; DIGITS + 1] = digits_of(GENERATOR);
    let mut digits = string.to_vec();
    let last = digits.len().saturating_sub(DIGITS);
    for start in 0..last {
        if digits[start] == 1 {
            let under = digits[start..].iter_mut().zip(generator);
            under.for_each(|(digit, less)| *digit ^= less);
        }
    }
    number_of(&digits[last..]) as u16
}

/// What a string leaves, or the refusal.
pub fn remainder_of(bits: &[u8]) -> Result<u16, u8> {
    if bits.len() > STRING {
        Err(STRING_TOO_LONG)
    } else if bits.iter().any(|&bit| bit > 1) {
        Err(NOT_A_BIT)
    } else {
        Ok(left(bits))
    }
}

/// What two strings leave together, or the refusal: the digits of the first's
/// remainder are divided with a zero behind them for each bit of the second.
pub fn join(first: u16, second: u16, length: u32) -> Result<u16, u8> {
    if length > STRING as u32 {
        return Err(STRING_TOO_LONG);
    }
    if first.max(second) > LARGEST {
        return Err(NOT_A_REMAINDER);
    }
    let digits: [u8; DIGITS] = digits_of(first.into());
    Ok(left(&[&digits[..], &vec![0; length as usize]].concat()) ^ second)
}
