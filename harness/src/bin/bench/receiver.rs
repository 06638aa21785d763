//! Bits per second through runs of the library and of receivers by hand, with
//! the fifty-byte and the packed state, on random bits, where all are hunting,
//! and on a clean feed, where all are locked.

use std::time::{Duration, Instant};

use harness::face::{self, Counts, PackedState, State};
use harness::feeds::{Sender, MINUTE};
use harness::independent::receiver::RUN;
use harness::independent::{Edition, BLOCK};
use harness::random::Random;

use crate::contest::{best_times, show};
use crate::{circuit, in_place, packed_table, stepwise};

type Runner<S> = fn(u16, &mut S, &[u8]) -> Counts;

/// That of every feed here.
pub const EDITION: Edition = Edition::Of1984;

const NAMES: [&str; 4] = ["product", "stepwise", "in place", "circuit"];
const RUNNERS: [Runner<State>; 4] =
    [face::run, stepwise::run, in_place::run, circuit::run_fifty_bytes];

const PACKED_NAMES: [&str; 3] = ["product", "circuit", "table"];
const PACKED_RUNNERS: [Runner<PackedState>; 3] =
    [face::run_packed, circuit::run, packed_table::run];

const BITS: usize = 1_000_000;
const ROUNDS: usize = 60;

/// The numbers of bits over which the cost must be linear.
const LENGTHS: [usize; 4] = [100_000, 1_000_000, 10_000_000, 100_000_000];

/// How many different bits there are. A longer string is these again and again.
const DIFFERENT: usize = 10_000_000;

pub fn measure() {
    println!("receiver: {BITS} bits in runs of {RUN}, best of {ROUNDS} rounds");
    for (what, bits) in [("hunting", random_bits(DIFFERENT)), ("locked", clean_feed(DIFFERENT))] {
        let few = &bits[..BITS];
        let best = best_times(ROUNDS, NAMES, RUNNERS, |run| run_all(run, State::FRESH, [few]));
        show(what, NAMES, best, BITS, "bits");

        let what = &format!("{what}, packed");
        let fresh = PackedState::default();
        let best =
            best_times(ROUNDS, PACKED_NAMES, PACKED_RUNNERS, |run| run_all(run, fresh, [few]));
        show(what, PACKED_NAMES, best, BITS, "bits");
        for len in LENGTHS {
            let each = nanoseconds_each(&bits, len);
            println!("{what}: product in strings of {len} bits, {each:.2} ns for each bit");
        }
    }
    println!("strings of more than {DIFFERENT} bits: the same {DIFFERENT} again and again");
}

/// The best time for each bit where the bits come in strings of this length,
/// each for a fresh receiver.
fn nanoseconds_each(bits: &[u8], len: usize) -> f64 {
    let times = len.div_ceil(bits.len());
    let timed = |string| {
        run_all(face::run_packed, PackedState::default(), std::iter::repeat_n(string, times)).0
    };
    let all = |_| bits.chunks(len).map(timed).sum::<Duration>();
    let best = (0..3).map(all).min().unwrap_or_default();
    best.as_secs_f64() * 1e9 / (bits.len() * times) as f64
}

pub fn random_bits(len: usize) -> Vec<u8> {
    Random::named("bits to hunt in").bits(len)
}

pub fn clean_feed(len: usize) -> Vec<u8> {
    let mut random = Random::named("clean feed");
    let mut sender = Sender::any(EDITION, &mut random);
    let mut feed = sender.minutes(&mut random, len.div_ceil(MINUTE * BLOCK));
    feed.truncate(len);
    feed
}

/// All counts and the last state after these strings, and the time they took.
fn run_all<'a, S>(
    run: Runner<S>,
    fresh: S,
    strings: impl IntoIterator<Item = &'a [u8]>,
) -> (Duration, (Vec<Counts>, S)) {
    let mut state = fresh;
    let mut counts = Vec::with_capacity(2 * LENGTHS[3] / RUN);
    let start = Instant::now();
    for piece in strings.into_iter().flat_map(|string| string.chunks(RUN)) {
        counts.push(run(EDITION.number(), &mut state, piece));
    }
    (start.elapsed(), (counts, state))
}
