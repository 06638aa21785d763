//! Blocks per second, mended by the library, by tables of remainders and by trying
//! every change. A part of a table's speed is demanded, and many times that of trying.

use std::time::{Duration, Instant};

use harness::face::{self, Mended};
use harness::independent::mending::{place_and_pattern, CHANGES};
use harness::independent::{bits_of, packed, BLOCK};
use harness::random::Random;
use harness::refusals::{NO_SUCH_CHANGE, SEVERAL_CHANGES};

use crate::blocks::BLOCKS;
use crate::contest::{best_times, demand, show};
use crate::{mending_table, table_number};

type Mender = fn(&mut [u8]) -> Mended;

const ROUNDS: usize = 60;

/// Trying takes its time: so many of the blocks are enough.
const TRIED: usize = 2_000;

pub fn measure() {
    println!("to mend, of 16: 10 with a burst within six places, 3 with two to eight changes,");
    println!("1 of random bits, 1 good, 1 not all bits; copied before each round");
    let mut random = Random::named("mending bench");
    let blocks: Vec<u8> = (0..BLOCKS).flat_map(|_| to_mend(&mut random)).collect();
    contest(
        ["product", "table", "table by eights"],
        [face::mend_block, mending_table::mend, mending_table::mend_by_eights],
        &blocks,
        0.3,
    );
    let few = &blocks[..TRIED * BLOCK];
    contest(["product", "trying all"], [face::mend_block, try_all], few, 10.0);
}

/// The library beside others, of the first of which this part of the speed is
/// demanded.
fn contest<const N: usize>(names: [&str; N], menders: [Mender; N], blocks: &[u8], least: f64) {
    let count = blocks.len() / BLOCK;
    println!("mend: {count} blocks, best of {ROUNDS} rounds");
    let best = best_times(ROUNDS, names, menders, |mend| mend_all(mend, blocks));
    show("mend", names, best, count, "blocks");
    demand("mend", [names[0], names[1]], [best[0], best[1]], least);
}

fn to_mend(random: &mut Random) -> [u8; BLOCK] {
    let good = random.block();
    match random.below(16) {
        0 => bits_of(good),
        1 => random.not_all_bits(good),
        2 => bits_of(random.number() & packed::LARGEST),
        3..=5 => {
            let places = 2 + random.below(7);
            bits_of(good ^ random.change(places))
        }
        _ => bits_of(good ^ CHANGES[random.below(CHANGES.len())]),
    }
}

/// All answers and all bytes as they are left, and the time they took. What is
/// mended is a copy, made before the clock starts, so that every round has the same
/// damage.
fn mend_all(mend: Mender, blocks: &[u8]) -> (Duration, (Vec<Mended>, Vec<u8>)) {
    let mut answers = vec![Mended::from(Err(u8::MAX)); blocks.len() / BLOCK];
    let mut bytes = blocks.to_vec();
    let start = Instant::now();
    for (bits, answer) in bytes.chunks_exact_mut(BLOCK).zip(&mut answers) {
        *answer = mend(bits);
    }
    (start.elapsed(), (answers, bytes))
}

/// Every change is applied to the block as a number, and what comes of it is read by
/// the table.
fn try_all(bits: &mut [u8]) -> Mended {
    let block = match packed::pack(bits) {
        Ok(block) => block,
        Err(refusal) => return Err(refusal).into(),
    };
    let is_good = |block| table_number::read(block).refusal == 0;
    if is_good(block) {
        return Mended::GOOD;
    }
    let mut making_good = CHANGES.iter().filter(|&change| is_good(block ^ change));
    match (making_good.next(), making_good.next()) {
        (None, _) => Err(NO_SUCH_CHANGE).into(),
        (Some(change), None) => {
            bits.copy_from_slice(&bits_of(block ^ change));
            Ok(place_and_pattern(*change)).into()
        }
        _ => Err(SEVERAL_CHANGES).into(),
    }
}
