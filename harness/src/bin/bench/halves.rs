//! Readings of the radio board per second, decided by the library and by a loop
//! written by hand. A part of the loop's speed is demanded.

use std::time::{Duration, Instant};

use harness::face::{self, Decided};
use harness::independent::halves::COUNTED;
use harness::random::Random;
use harness::readings::{even_reading, led, Halves, LARGEST, LARGEST_MARGIN, LEAD};
use harness::refusals::{EQUAL_PAIRINGS, NO_ROOM, OUT_OF_DEGREES, OUT_OF_RANGE, TOO_FEW_READINGS};

use crate::contest::{best_times, demand, show};

type Decider = fn(&[f32], f32, u8, &mut [u8]) -> Decided;

const NAMES: [&str; 2] = ["product", "by hand"];
const DECIDERS: [Decider; 2] = [face::decide, decide];

const READINGS: usize = 1_000_000;
const ROUNDS: usize = 150;

/// Of readings anywhere in the range a tenth of the bits is doubtful with this margin.
const MARGIN: f32 = 4.62;

/// What the library must have of the loop's speed.
const DEMANDED: f64 = 0.8;

pub fn measure() {
    println!("decide: {READINGS} readings, best of {ROUNDS} rounds; of 10 bits 1 is doubtful");
    let mut random = Random::named("halves bench");
    let any = |_| [(); 2].map(|()| even_reading(&mut random));
    let halves: Vec<Halves> = (LEAD..READINGS / 2).map(any).collect();
    let readings = led(0, &halves);
    let best = best_times(ROUNDS, NAMES, DECIDERS, |decide| decided(decide, &readings));
    show("decide", NAMES, best, READINGS, "readings");
    demand("decide", NAMES, best, DEMANDED);
}

/// The answer and the bits, and the time they took. The slice is filled before, so that
/// the clock does not see its first touch.
fn decided(decide: Decider, readings: &[f32]) -> (Duration, (Decided, Vec<u8>)) {
    let mut bits = vec![0xA5; readings.len() / 2];
    let start = Instant::now();
    let answer = decide(readings, MARGIN, 0, &mut bits);
    (start.elapsed(), (answer, bits))
}

/// Looks at every reading, then counts both pairings, then writes.
fn decide(readings: &[f32], margin: f32, polarity: u8, bits: &mut [u8]) -> Decided {
    if polarity > 1 {
        return Err(OUT_OF_RANGE).into();
    }
    if readings.len() < COUNTED {
        return Err(TOO_FEW_READINGS).into();
    }
    // To leave at the first bad one would cost much more than it saves: so the compiler
    // tests several at once.
    let mut in_range = (0.0..=LARGEST_MARGIN).contains(&margin);
    for reading in readings {
        in_range &= (-LARGEST..=LARGEST).contains(reading);
    }
    if !in_range {
        return Err(OUT_OF_DEGREES).into();
    }
    let (even, odd) = (opposite(&readings[..COUNTED]), opposite(&readings[1..COUNTED]));
    if even == odd {
        return Err(EQUAL_PAIRINGS).into();
    }
    let pairing = u8::from(odd > even);
    let pairs = readings[pairing.into()..].chunks_exact(2);
    let count = pairs.len();
    if bits.len() < count {
        return Err(NO_ROOM).into();
    }
    for (pair, bit) in pairs.zip(bits) {
        *bit = bit_of(pair[0], pair[1], margin, polarity);
    }
    Ok((pairing, count as u64)).into()
}

/// Counts the pairs of opposite sign.
fn opposite(readings: &[f32]) -> usize {
    let mut count = 0;
    for pair in readings.chunks_exact(2) {
        if pair[0] > 0.0 && pair[1] < 0.0 || pair[0] < 0.0 && pair[1] > 0.0 {
            count += 1;
        }
    }
    count
}

fn bit_of(first: f32, second: f32, margin: f32, polarity: u8) -> u8 {
    if first == second || (first - second).abs() < margin {
        0
    } else if first > second {
        1 - polarity
    } else {
        polarity
    }
}
