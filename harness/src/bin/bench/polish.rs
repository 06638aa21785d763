//! Polish frames per second, read and written by the library and by a program
//! with tables.

use std::time::{Duration, Instant};

use harness::face::{self, Polish, PolishAnswer};
use harness::independent::polish::{Sent, FRAME};
use harness::random::Random;

use crate::contest::{best_times, show};
use crate::polish_table;

type Reader = fn(&[u8]) -> PolishAnswer;
type Writer = fn(Polish, &mut [u8]) -> u8;

const NAMES: [&str; 2] = ["product", "table"];
const READERS: [Reader; 2] = [face::read_polish, polish_table::read];
const WRITERS: [Writer; 2] = [face::write_polish, polish_table::write];

const FRAMES: usize = 300_000;
const ROUNDS: usize = 10;

/// Frames of one kind, and what they are called.
type Kind = (&'static str, fn(&mut Random) -> Sent);

const KINDS: [Kind; 3] =
    [("polish clean", clean), ("polish three errors", three_errors), ("polish far", far)];

pub fn measure() {
    println!("polish: {FRAMES} frames, best of {ROUNDS} rounds");
    let mut random = Random::named("polish bench");
    for (what, next) in KINDS {
        let frames: Vec<u8> = (0..FRAMES).flat_map(|_| next(&mut random).frame()).collect();
        let best = best_times(ROUNDS, NAMES, READERS, |read| read_all(read, &frames));
        show(what, NAMES, best, FRAMES, "frames");
    }
    let times: Vec<Polish> = (0..FRAMES).map(|_| random.polish()).collect();
    let best = best_times(ROUNDS, NAMES, WRITERS, |write| write_all(write, &times));
    show("polish write", NAMES, best, FRAMES, "frames");
}

fn clean(random: &mut Random) -> Sent {
    Sent::of_time(random.polish())
}

/// Three wrong symbols of the fifteen.
fn three_errors(random: &mut Random) -> Sent {
    let sent = clean(random);
    Sent { word: sent.word ^ random.pattern(3), ..sent }
}

/// Random symbols, which one in eleven times can be mended.
fn far(random: &mut Random) -> Sent {
    Sent { word: random.number() >> 4, ..clean(random) }
}

/// All answers, and the time they took.
fn read_all(read: Reader, frames: &[u8]) -> (Duration, Vec<PolishAnswer>) {
    let mut answers = vec![PolishAnswer::from(Err(u8::MAX)); FRAMES];
    let start = Instant::now();
    for (frame, answer) in frames.chunks_exact(FRAME).zip(&mut answers) {
        *answer = read(frame);
    }
    (start.elapsed(), answers)
}

/// All refusals and all written bytes, and the time they took.
fn write_all(write: Writer, times: &[Polish]) -> (Duration, (Vec<u8>, Vec<u8>)) {
    let mut refusals = vec![u8::MAX; FRAMES];
    let mut bytes = vec![0xA5; FRAMES * FRAME];
    let start = Instant::now();
    let places = bytes.chunks_exact_mut(FRAME).zip(&mut refusals);
    for (&time, (frame, refusal)) in times.iter().zip(places) {
        *refusal = write(time, frame);
    }
    (start.elapsed(), (refusals, bytes))
}
