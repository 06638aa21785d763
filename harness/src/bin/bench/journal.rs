//! A month's journal, compacted by the library, by one move of all wanted bytes,
//! which looks at none of them, and by hand, which looks at them before; and its
//! report, by the library, by the division circuit by hand and by a table of
//! remainders. A part of the move's speed is demanded, and of the circuit's; beside
//! the others nothing is.

use std::time::{Duration, Instant};

use harness::face::{self, Block, Compacted, Report};
use harness::independent::journal::{bytes_of, entries_of, Entry, ENTRY};
use harness::independent::{block, Edition, BLOCK, PREFIX};
use harness::journals::Journal;
use harness::random::Random;
use harness::refusals::{NOT_RISING, NUMBER_TOO_WIDE, WRONG_TRAILER};

use crate::contest::{best_times, demand, show};
use crate::{circuit_number, table_number};

type Compacter = fn(&mut [u8]) -> Compacted;
type Reporter = fn(&mut Report, &[u8]) -> u8;

/// Thirty blocks a minute for thirty days, and some more.
const ENTRIES: usize = 1_300_000;

/// So many of them are no longer wanted.
const UNWANTED: usize = ENTRIES / 20;

const ROUNDS: usize = 40;
const REPORT_ROUNDS: usize = 20;

pub fn measure() {
    println!("journal: {ENTRIES} entries, {UNWANTED} not wanted; of 30: 17 good, 10 fillers,");
    println!("2 with one to three changes, 1 prefix 0; copied before each round");
    let journal = month();
    measure_compacting(&journal);
    measure_report(&journal);
}

fn measure_compacting(journal: &[u8]) {
    const NAMES: [&str; 3] = ["product", "move", "look and move"];
    const COMPACTERS: [Compacter; 3] = [face::compact, move_all, look_and_move];
    println!("compact: {} bytes, best of {ROUNDS} rounds", journal.len());
    let best = best_times(ROUNDS, NAMES, COMPACTERS, |compact| compacted(compact, journal));
    show("compact", NAMES, best, journal.len(), "bytes");
    demand("compact", [NAMES[0], NAMES[1]], [best[0], best[1]], 0.3);
}

fn measure_report(journal: &[u8]) {
    const NAMES: [&str; 3] = ["product", "circuit", "table"];
    const REPORTERS: [Reporter; 3] = [add_by_product, add_by_circuit, add_by_table];
    println!("report: {} bytes, best of {REPORT_ROUNDS} rounds", journal.len());
    let best = best_times(REPORT_ROUNDS, NAMES, REPORTERS, |add| reported(add, journal));
    show("report", NAMES, best, journal.len(), "bytes");
    demand("report", [NAMES[0], NAMES[1]], [best[0], best[1]], 0.8);
}

fn month() -> Vec<u8> {
    let mut random = Random::named("journal bench");
    let numbers = (1..=ENTRIES).map(|place| (place * BLOCK) as u64);
    let mut wanted: Vec<Entry> = numbers.map(|number| (number, received(&mut random))).collect();
    let unwanted: Vec<Entry> = wanted.drain(..UNWANTED).collect();
    Journal { before: bytes_of(&unwanted), wanted, behind: Vec::new() }.bytes()
}

fn received(random: &mut Random) -> u64 {
    let good = random.block();
    match random.below(30) {
        0 | 1 => {
            let places = 1 + random.below(3);
            good ^ random.change(places)
        }
        2 => good ^ PREFIX,
        3..=12 => block(0, random.number() as u32 | 1 << 31),
        _ => good,
    }
}

/// The answer and the bytes that are left, and the time it took.
fn compacted(compact: Compacter, journal: &[u8]) -> (Duration, (Compacted, Vec<u8>)) {
    let mut bytes = journal.to_vec();
    let start = Instant::now();
    let answer = compact(&mut bytes);
    (start.elapsed(), (answer, bytes))
}

/// The answer and the report, and the time they took.
fn reported(add: Reporter, journal: &[u8]) -> (Duration, (u8, Report)) {
    let bytes = journal.to_vec();
    let mut report = Report::FRESH;
    let start = Instant::now();
    let refusal = add(&mut report, &bytes);
    (start.elapsed(), (refusal, report))
}

/// Offset and length in bytes of the wanted entries, if the trailer fits.
fn wanted(journal: &[u8]) -> Option<(usize, usize)> {
    let end = journal.len().checked_sub(ENTRY)?;
    let (offset, count) = entries_of(&journal[end..])[0];
    let length = count.checked_mul(ENTRY as u64)?;
    let fits = end.is_multiple_of(ENTRY)
        && offset.is_multiple_of(ENTRY as u64)
        && offset.checked_add(length)? <= end as u64;
    fits.then_some((offset as usize, length as usize))
}

/// What compaction writes, with nothing asked of the entries.
fn move_all(journal: &mut [u8]) -> Compacted {
    let Some((offset, length)) = wanted(journal) else {
        return Err(WRONG_TRAILER).into();
    };
    journal.copy_within(offset..offset + length, 0);
    let (trailer, rest) = journal[length..].split_at_mut(ENTRY);
    trailer.copy_from_slice(&bytes_of(&[(0, (length / ENTRY) as u64)]));
    rest.fill(0);
    Ok((length + ENTRY) as u64).into()
}

/// All that compaction does.
fn look_and_move(journal: &mut [u8]) -> Compacted {
    let Some((offset, length)) = wanted(journal) else {
        return Err(WRONG_TRAILER).into();
    };
    match look_at_all(&journal[offset..offset + length], |_| {}) {
        0 => move_all(journal),
        refusal => Err(refusal).into(),
    }
}

/// One pass over the wanted entries, which hands over each block of a sound one.
/// Answers the refusal, 0 where all are sound.
#[inline(always)]
fn look_at_all(wanted: &[u8], mut take: impl FnMut(u64)) -> u8 {
    let number = |eight: &[u8]| u64::from_be_bytes(eight.try_into().expect("eight bytes"));
    let mut last = None;
    for entry in wanted.chunks_exact(ENTRY) {
        let (bit, block) = (number(&entry[..8]), number(&entry[8..]));
        if last.is_some_and(|last| bit <= last) {
            return NOT_RISING;
        }
        if block >= PREFIX * 2 {
            return NUMBER_TOO_WIDE;
        }
        last = Some(bit);
        take(block);
    }
    0
}

fn add_by_product(report: &mut Report, journal: &[u8]) -> u8 {
    face::report_add(Edition::Of1984.number(), report, journal)
}

fn add_by_circuit(report: &mut Report, journal: &[u8]) -> u8 {
    add_by(|block| circuit_number::read(block), report, journal)
}

fn add_by_table(report: &mut Report, journal: &[u8]) -> u8 {
    add_by(|block| table_number::read(block), report, journal)
}

/// One pass, for the edition of 1984: the report is changed where all entries are
/// sound. That it is proper and has room is not asked.
#[inline(always)]
fn add_by(read: impl Fn(u64) -> Block, report: &mut Report, journal: &[u8]) -> u8 {
    let Some((offset, length)) = wanted(journal) else {
        return WRONG_TRAILER;
    };
    let mut totals = *report;
    let refusal = look_at_all(&journal[offset..offset + length], |block| {
        let Block { refusal, code, word, .. } = read(block);
        totals.blocks += 1;
        if refusal == 0 {
            totals.good += 1;
            totals.codes[usize::from(code)] += 1;
            totals.fillers += u64::from(code == 0 && word >> 31 == 1);
        }
    });
    if refusal == 0 {
        *report = totals;
    }
    refusal
}
