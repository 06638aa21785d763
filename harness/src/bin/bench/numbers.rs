//! Blocks per second, read and written as numbers by the library, by the
//! division circuit by hand and by a hand-written table.

use std::time::{Duration, Instant};

use harness::face::{self, Block, Packed};
use harness::independent::{BLOCK, PREFIX};
use harness::random::Random;

use crate::blocks::{to_write, BLOCKS, ROUNDS};
use crate::contest::{best_times, show};
use crate::{circuit_number, table_number};

// Called through pointers, as the blocks of bytes are. Reading is so short that
// it is called as C does it: the answer then comes back in registers.
type Reader = extern "C" fn(u64) -> Block;
type Writer = fn(u8, u32) -> Packed;

const NAMES: [&str; 3] = ["product", "circuit", "table"];
const READERS: [Reader; 3] = [read_by_product, circuit_number::read, table_number::read];
const WRITERS: [Writer; 3] = [face::write_packed, circuit_number::write, table_number::write];

pub fn measure() {
    println!("to read, of 16: 12 good, 2 with one to three changes, 1 prefix 0, 1 too wide");
    let mut random = Random::named("packed bench");
    let blocks: Vec<u64> = (0..BLOCKS).map(|_| to_read(&mut random)).collect();
    let best = best_times(ROUNDS, NAMES, READERS, |read| read_all(read, &blocks));
    show("read, packed", NAMES, best, BLOCKS, "blocks");

    let messages: Vec<(u8, u32)> = (0..BLOCKS).map(|_| to_write(&mut random)).collect();
    let best = best_times(ROUNDS, NAMES, WRITERS, |write| write_all(write, &messages));
    show("write, packed", NAMES, best, BLOCKS, "blocks");
}

extern "C" fn read_by_product(block: u64) -> Block {
    face::read_packed(block)
}

fn to_read(random: &mut Random) -> u64 {
    let good = random.block();
    match random.below(16) {
        0 => good ^ PREFIX,
        1 => good | 1 << (BLOCK + random.below(64 - BLOCK)),
        2 | 3 => {
            let places = 1 + random.below(3);
            good ^ random.change(places)
        }
        _ => good,
    }
}

/// All answers, and the time they took.
fn read_all(read: Reader, blocks: &[u64]) -> (Duration, Vec<Block>) {
    let mut answers = vec![Block::refused(u8::MAX); BLOCKS];
    let start = Instant::now();
    for (&block, answer) in blocks.iter().zip(&mut answers) {
        *answer = read(block);
    }
    (start.elapsed(), answers)
}

/// All written numbers, and the time they took.
fn write_all(write: Writer, messages: &[(u8, u32)]) -> (Duration, Vec<Packed>) {
    let mut answers = vec![Packed::from(Err(u8::MAX)); BLOCKS];
    let start = Instant::now();
    for (&(code, word), answer) in messages.iter().zip(&mut answers) {
        *answer = write(code, word);
    }
    (start.elapsed(), answers)
}
