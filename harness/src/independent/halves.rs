//! Half-bit readings as whole numbers: each stands on a scale of units of the
//! smallest float, 2^-149 degrees, and is found there from its 32-bit pattern. All
//! is compared, subtracted and rounded on that scale; no float has a part in it.

use super::whole::Whole;
use crate::refusals::{EQUAL_PAIRINGS, NO_ROOM, OUT_OF_DEGREES, OUT_OF_RANGE, TOO_FEW_READINGS};

/// Readings that are looked at for the pairing, and the fewest there may be.
pub const COUNTED: usize = 64;

/// Binary digits of a difference after its one rounding.
const DIGITS: u32 = 24;

/// The exponents of a pattern that stand for no power of 2: of subnormal numbers, and
/// of infinities and what is no number.
const SUBNORMAL: u32 = 0;
const NOT_FINITE: u32 = 255;

/// Zero on the scale, so high above its lower end that every finite number is on it.
const ZERO: Whole = Whole::new(1, 300);

/// So many degrees in units.
const fn degrees(number: u32) -> Whole {
    Whole::new(number, 149)
}

/// The place on the scale of a pattern, if it is that of a finite number. Both zeros
/// have the same.
fn place_of(pattern: u32) -> Option<Whole> {
    let (exponent, fraction) = (pattern >> 23 & 0xFF, pattern & 0x7F_FFFF);
    let size = match exponent {
        SUBNORMAL => Whole::new(fraction, 0),
        NOT_FINITE => return None,
        _ => Whole::new(1 << 23 | fraction, exponent - 1),
    };
    Some(if pattern >> 31 == 1 { ZERO.minus(size) } else { ZERO.plus(size) })
}

/// The places of all readings, if each is from -45 to 45.
fn places_of(readings: &[u32]) -> Option<Vec<Whole>> {
    let (lowest, highest) = (ZERO.minus(degrees(45)), ZERO.plus(degrees(45)));
    let in_range = |place: &Whole| (lowest..=highest).contains(place);
    readings.iter().map(|&reading| place_of(reading).filter(in_range)).collect()
}

/// The margin in units, if it is from 0 to 90.
fn margin_of(pattern: u32) -> Option<Whole> {
    let place = place_of(pattern).filter(|&place| place >= ZERO)?;
    Some(place.minus(ZERO)).filter(|&margin| margin <= degrees(90))
}

/// A first and a second half.
type Halves = [Whole; 2];

/// What belongs together when the first reading has a partner (0) or has none (1).
fn pairs(places: &[Whole], pairing: u8) -> Vec<Halves> {
    let paired = places[usize::from(pairing)..].chunks_exact(2);
    paired.map(|two| [two[0], two[1]]).collect()
}

/// Whether zero lies between the two and is none of them.
fn are_opposite([first, second]: &Halves) -> bool {
    first.min(second) < &ZERO && first.max(second) > &ZERO
}

/// The pairing with more pairs of opposite sign, unless both have as many.
fn pairing_of(places: &[Whole]) -> Result<u8, u8> {
    let opposite = |pairing| {
        pairs(&places[..COUNTED], pairing).iter().filter(|pair| are_opposite(pair)).count()
    };
    let (even, odd) = (opposite(0), opposite(1));
    if even == odd {
        Err(EQUAL_PAIRINGS)
    } else {
        Ok(u8::from(odd > even))
    }
}

/// The bit of two halves, if there is no doubt.
fn bit_of([first, second]: &Halves, margin: Whole) -> Option<u8> {
    let difference = first.max(second).minus(*first.min(second));
    let doubtful = first == second || difference.rounded_to(DIGITS) < margin;
    (!doubtful).then_some(u8::from(first > second))
}

/// The pairing, the number of bits and all bytes of the lent slice as they are then;
/// or the refusal.
pub fn decide(
    readings: &[u32],
    margin: u32,
    polarity: u8,
    before: &[u8],
) -> Result<((u8, u64), Vec<u8>), u8> {
    if polarity > 1 {
        return Err(OUT_OF_RANGE);
    }
    if readings.len() < COUNTED {
        return Err(TOO_FEW_READINGS);
    }
    let places = places_of(readings).ok_or(OUT_OF_DEGREES)?;
    let margin = margin_of(margin).ok_or(OUT_OF_DEGREES)?;
    let pairing = pairing_of(&places)?;
    // Doubt is 0 whatever the polarity.
    let sent = |bit: Option<u8>| bit.map_or(0, |bit| bit ^ polarity);
    let pairs = pairs(&places, pairing);
    let bits: Vec<u8> = pairs.iter().map(|halves| sent(bit_of(halves, margin))).collect();
    let rest = before.get(bits.len()..).ok_or(NO_ROOM)?;
    Ok(((pairing, bits.len() as u64), [&bits, rest].concat()))
}
