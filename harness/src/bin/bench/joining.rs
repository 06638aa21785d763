//! Strings divided by the library and by the division circuit by hand; and
//! remainders joined by the library and by turning the circuit once for each bit of
//! the second string. A part of the circuit's speed is demanded in both.

use std::time::{Duration, Instant};

use harness::face::{self, Remainder};
use harness::independent::joining::{LARGEST, STRING};
use harness::random::Random;
use harness::refusals::{NOT_A_BIT, NOT_A_REMAINDER, STRING_TOO_LONG};

use crate::circuit::turned;
use crate::contest::{best_times, demand, show, show_ratios};

type Divider = fn(&[u8]) -> Remainder;
type Joiner = fn(u16, u16, u32) -> Remainder;

const NAMES: [&str; 2] = ["product", "circuit"];
const DIVIDERS: [Divider; 2] = [face::remainder_of, divide];
const JOINERS: [Joiner; 2] = [face::join, join];

const STRINGS: usize = 16;
const ROUNDS: usize = 150;

/// What the library must have of the circuit's speed.
const DEMANDED: f64 = 0.8;

/// Lengths of second strings, and how many pairs of remainders are joined at each:
/// the circuit turns about ten million times.
const LENGTHS: [(u32, usize); 3] = [(50, 200_000), (1_000, 10_000), (65_536, 150)];
const JOINING_ROUNDS: usize = 40;

pub fn measure() {
    let mut random = Random::named("joining bench");
    measure_dividing(&mut random);
    for (length, count) in LENGTHS {
        measure_joining(length, count, &mut random);
    }
}

fn measure_dividing(random: &mut Random) {
    println!("strings: {STRINGS} of {STRING} bits, best of {ROUNDS} rounds; 1 is not all bits");
    let mut strings: Vec<Vec<u8>> = (0..STRINGS).map(|_| random.bits(STRING)).collect();
    strings[STRINGS / 2][STRING / 2] = random.not_a_bit();
    let best = best_times(ROUNDS, NAMES, DIVIDERS, |divide| divide_all(divide, &strings));
    show("divide", NAMES, best, STRINGS * STRING, "bits");
    demand("divide", NAMES, best, DEMANDED);
}

fn measure_joining(length: u32, count: usize, random: &mut Random) {
    let what = &format!("join, {length} bits behind");
    println!("{what}: {count} pairs of remainders, best of {JOINING_ROUNDS} rounds");
    let pairs: Vec<[u16; 2]> = (0..count).map(|_| [(); 2].map(|()| random.remainder())).collect();
    let best = best_times(JOINING_ROUNDS, NAMES, JOINERS, |join| join_all(join, &pairs, length));
    for (name, time) in NAMES.iter().zip(best) {
        let each = time.as_secs_f64() * 1e9 / count as f64;
        println!("{what}: {name} {each:.1} ns for each pair");
    }
    show_ratios(what, NAMES, best);
    demand(what, NAMES, best, DEMANDED);
}

/// All answers, and the time they took.
fn divide_all(divide: Divider, strings: &[Vec<u8>]) -> (Duration, Vec<Remainder>) {
    let mut answers = Vec::with_capacity(strings.len());
    let start = Instant::now();
    answers.extend(strings.iter().map(|bits| divide(bits)));
    (start.elapsed(), answers)
}

/// All answers, and the time they took.
fn join_all(join: Joiner, pairs: &[[u16; 2]], length: u32) -> (Duration, Vec<Remainder>) {
    let mut answers = vec![Remainder::from(Err(u8::MAX)); pairs.len()];
    let start = Instant::now();
    for (&[first, second], answer) in pairs.iter().zip(&mut answers) {
        *answer = join(first, second, length);
    }
    (start.elapsed(), answers)
}

/// One turn of the circuit for each bit.
fn divide(bits: &[u8]) -> Remainder {
    if bits.len() > STRING {
        return Err(STRING_TOO_LONG).into();
    }
    let mut register = 0;
    for &bit in bits {
        if bit > 1 {
            return Err(NOT_A_BIT).into();
        }
        register = turned(register, bit);
    }
    Ok(register as u16).into()
}

/// The first's remainder turned on with a zero for each bit of the second.
fn join(first: u16, second: u16, length: u32) -> Remainder {
    if length > STRING as u32 {
        return Err(STRING_TOO_LONG).into();
    }
    if first.max(second) > LARGEST {
        return Err(NOT_A_REMAINDER).into();
    }
    let register = (0..length).fold(first.into(), |register, _| turned(register, 0));
    Ok(register as u16 ^ second).into()
}
