//! Blocks per second, read and written by the library, by a hand-written table
//! and one bit at a time.

use std::time::{Duration, Instant};

use harness::face::{self, Block};
use harness::independent::{bits_of, BLOCK, PREFIX};
use harness::random::Random;

use crate::contest::{best_times, show};
use crate::{bitwise, table};

// Each is called through a pointer, once a block: none is built into the loop.
type Reader = fn(&[u8]) -> Block;
type Writer = fn(u8, u32, &mut [u8]) -> u8;

const NAMES: [&str; 3] = ["product", "table", "bitwise"];
const READERS: [Reader; 3] = [face::read_block, table::read, bitwise::read];
const WRITERS: [Writer; 3] = [face::write_block, table::write, bitwise::write];

pub const BLOCKS: usize = 300_000;
pub const ROUNDS: usize = 150;

pub fn measure() {
    println!("blocks: {BLOCKS}, best of {ROUNDS} rounds");
    println!("to read, of 16: 12 good, 2 with one to three changes, 1 prefix 0, 1 not all bits");
    let mut random = Random::named("bench");
    let blocks: Vec<u8> = (0..BLOCKS).flat_map(|_| to_read(&mut random)).collect();
    let best = best_times(ROUNDS, NAMES, READERS, |read| read_all(read, &blocks));
    show("read", NAMES, best, BLOCKS, "blocks");

    println!("to write, of 16: 15 good, 1 with a code above 15; buffers filled before");
    let messages: Vec<(u8, u32)> = (0..BLOCKS).map(|_| to_write(&mut random)).collect();
    let best = best_times(ROUNDS, NAMES, WRITERS, |write| write_all(write, &messages));
    show("write", NAMES, best, BLOCKS, "blocks");
}

fn to_read(random: &mut Random) -> [u8; BLOCK] {
    let good = random.block();
    match random.below(16) {
        0 => bits_of(good ^ PREFIX),
        1 => random.not_all_bits(good),
        2 | 3 => {
            let places = 1 + random.below(3);
            bits_of(good ^ random.change(places))
        }
        _ => bits_of(good),
    }
}

pub fn to_write(random: &mut Random) -> (u8, u32) {
    let (code, word) = random.code_and_word();
    match random.below(16) {
        0 => (code + 16, word),
        _ => (code, word),
    }
}

/// All answers, and the time they took. What is written to is filled before,
/// so that the clock does not see its first touch.
fn read_all(read: Reader, blocks: &[u8]) -> (Duration, Vec<Block>) {
    let mut answers = vec![Block::refused(u8::MAX); BLOCKS];
    let start = Instant::now();
    for (bits, answer) in blocks.chunks_exact(BLOCK).zip(&mut answers) {
        *answer = read(bits);
    }
    (start.elapsed(), answers)
}

/// All refusals and all written bytes, and the time they took.
fn write_all(write: Writer, messages: &[(u8, u32)]) -> (Duration, (Vec<u8>, Vec<u8>)) {
    let mut refusals = vec![u8::MAX; BLOCKS];
    let mut bytes = vec![0xA5; BLOCKS * BLOCK];
    let start = Instant::now();
    let places = bytes.chunks_exact_mut(BLOCK).zip(&mut refusals);
    for (&(code, word), (bits, refusal)) in messages.iter().zip(places) {
        *refusal = write(code, word, bits);
    }
    (start.elapsed(), (refusals, bytes))
}
