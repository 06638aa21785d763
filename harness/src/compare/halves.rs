//! The readings of the radio board.

use std::hint::black_box;

use super::Guarded;
use crate::face::{self, Decided};
use crate::independent::halves;
use crate::readings::{lead_bits, led, Halves, LEAD};

/// What stands on both sides of lent readings: whoever looks at it has to refuse.
const NO_NUMBERS: [f32; 4] = [f32::NAN; 4];

/// Readings as patterns, which also tell apart what is no number.
fn patterns(readings: &[f32]) -> Vec<u32> {
    readings.iter().map(|reading| reading.to_bits()).collect()
}

/// Compares the deciding of readings into a copy of `before`; gives the pairing and
/// the bits on which both agree, or the refusal, with which `before` must stay.
pub fn deciding(
    readings: &[f32],
    margin: f32,
    polarity: u8,
    before: &[u8],
) -> Result<(u8, Vec<u8>), u8> {
    let lent_readings = [&NO_NUMBERS, readings, &NO_NUMBERS].concat();
    let end = NO_NUMBERS.len() + readings.len();
    let mut lent = Guarded::holding(before);
    let within = &lent_readings[NO_NUMBERS.len()..end];
    let answer = face::decide(within, margin, polarity, lent.content());
    let given = patterns(readings);
    let (expected, mut left) = match halves::decide(&given, margin.to_bits(), polarity, before) {
        Ok((told, bytes)) => (Ok(told), bytes),
        Err(refusal) => (Err(refusal), before.to_vec()),
    };
    let what = || about(readings, margin, polarity, before.len());
    assert_eq!(answer, Decided::from(expected), "{}", what());
    must_be_left(lent, &left, what);
    let after = patterns(&black_box(lent_readings)[NO_NUMBERS.len()..end]);
    assert!(after == given, "{}: the readings changed", what());
    expected.map(|(pairing, count)| {
        left.truncate(count as usize);
        (pairing, left)
    })
}

/// Compares the deciding of halves behind others that make the pairing clear; gives
/// their bits.
pub fn deciding_halves(pairing: u8, halves: &[Halves], margin: f32, polarity: u8) -> Vec<u8> {
    let before = vec![0xA5; LEAD + halves.len()];
    let answer = deciding(&led(pairing, halves), margin, polarity, &before);
    let (taken, mut lead) = answer.expect("readings and a margin in range");
    let bits = lead.split_off(LEAD);
    assert_eq!((taken, lead), (pairing, lead_bits(polarity)), "the halves that lead");
    bits
}

/// Names the first byte of the lent slice that is not what it must be.
fn must_be_left(lent: Guarded, left: &[u8], what: impl Fn() -> String) {
    let mut lent = lent.after();
    if lent == Guarded::holding(left) {
        return;
    }
    let wrong = lent.content().iter().zip(left).position(|(got, expected)| got != expected);
    match wrong {
        Some(place) => {
            let (got, expected) = (lent.content()[place], left[place]);
            panic!("{}: byte {place} must be {expected}, got {got}", what())
        }
        None => panic!("{}: a byte beside the slice changed", what()),
    }
}

/// What was asked where the two disagree: the readings too, unless they are many.
fn about(readings: &[f32], margin: f32, polarity: u8, len: usize) -> String {
    let shown = match readings.len() {
        0..=300 => format!("{readings:?}"),
        count => format!("{count} readings"),
    };
    let pattern = margin.to_bits();
    format!(
        "deciding {shown}, margin {margin:?} ({pattern:#010x}), polarity {polarity}, into {len}"
    )
}
