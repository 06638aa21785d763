//! The speed of the library (the product) beside programs written by hand, as
//! ratios from one run on the same input.

mod bits;
mod bitwise;
mod blocks;
mod circuit;
mod circuit_number;
mod clock;
mod contest;
mod halves;
mod in_place;
mod joining;
mod journal;
mod mending;
mod mending_table;
mod numbers;
mod packed_table;
mod polish;
mod polish_table;
mod program;
mod receiver;
mod standing;
mod stepwise;
mod table;
mod table_number;
mod watching;

use std::env;

use harness::random::seed;

use contest::{emulated, measured};

const CONTESTS: [fn(); 10] = [
    blocks::measure,
    numbers::measure,
    mending::measure,
    joining::measure,
    journal::measure,
    halves::measure,
    receiver::measure,
    watching::measure,
    polish::measure,
    program::measure,
];

fn main() {
    match env::args().nth(1).as_deref() {
        None => {
            println!("bench: seed {}", seed());
            if emulated() {
                println!("bench: an emulator: ONE round of each; the times say nothing");
            }
            let missed: Vec<String> = CONTESTS.into_iter().flat_map(measured).collect();
            assert!(missed.is_empty(), "missed: {}", missed.join("; "));
        }
        // The program by hand, which has to be a process of its own.
        Some(program::BY_HAND) => program::receive().expect("standard input"),
        Some(other) => panic!("expected no argument or '{}', got '{other}'", program::BY_HAND),
    }
}
