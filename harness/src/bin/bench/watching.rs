//! What watching costs: bits per second through watched runs of the library and
//! through its plain runs with the packed state, on random bits, on a clean feed and
//! on damaged ones. Watching must cost less than a tenth of the speed.

use std::time::{Duration, Instant};

use harness::face::{self, Counts, PackedState, Watch};
use harness::feeds::{troubled, MISHAPS};
use harness::independent::receiver::RUN;
use harness::random::Random;

use crate::contest::{best_times, demand, show};
use crate::receiver::{clean_feed, random_bits, EDITION};

/// All counts and the last state after these bits, and the time they took.
type Answer = (Duration, (Vec<Counts>, PackedState));

const NAMES: [&str; 2] = ["watched", "plain"];
const RUNNERS: [fn(&[u8]) -> Answer; 2] = [watched, plain];

const BITS: usize = 1_000_000;
const ROUNDS: usize = 150;

/// What is left of the speed must be more than this.
const DEMANDED: f64 = 0.9;

pub fn measure() {
    println!("watching: {BITS} bits in runs of {RUN}, best of {ROUNDS} rounds");
    for (what, bits) in [
        ("hunting", random_bits(BITS)),
        ("locked", clean_feed(BITS)),
        ("1 block of 100 damaged", damaged_feed(BITS, 100)),
        ("1 block of 10 damaged", damaged_feed(BITS, 10)),
    ] {
        let what = &format!("{what}, watched");
        let best = best_times(ROUNDS, NAMES, RUNNERS, |run| run(&bits));
        show(what, NAMES, best, BITS, "bits");
        demand(what, NAMES, best, DEMANDED);
    }
}

/// Feeds with every kind of mishap, to about one block of so many.
fn damaged_feed(len: usize, every: usize) -> Vec<u8> {
    let mut random = Random::named("damaged feeds to watch");
    let mut bits = Vec::with_capacity(2 * len);
    while bits.len() < len {
        let any = |random: &mut Random| MISHAPS[random.below(MISHAPS.len())];
        bits.extend(troubled(EDITION, &mut random, 20, every, any));
    }
    bits.truncate(len);
    bits
}

fn watched(bits: &[u8]) -> Answer {
    let mut watch = Watch::default();
    let (time, counts) =
        run_all(bits, |piece| face::watch_run(EDITION.number(), &mut watch, piece));
    (time, (counts, watch.state))
}

fn plain(bits: &[u8]) -> Answer {
    let mut state = PackedState::default();
    let (time, counts) =
        run_all(bits, |piece| face::run_packed(EDITION.number(), &mut state, piece));
    (time, (counts, state))
}

fn run_all(bits: &[u8], mut run: impl FnMut(&[u8]) -> Counts) -> (Duration, Vec<Counts>) {
    let mut counts = Vec::with_capacity(bits.len().div_ceil(RUN));
    let start = Instant::now();
    for piece in bits.chunks(RUN) {
        counts.push(run(piece));
    }
    (start.elapsed(), counts)
}
