//! Request No. 13 against the library: how long a receiver waits for lock in an
//! undamaged run, from a fresh state and from any other. Where the proviso of the
//! promise fails, how far lock misses it. `Receiver` compares every bit with the
//! history, under both editions.

use std::collections::BTreeMap;

use harness::compare::Receiver;
use harness::face::{Counts, State, HUNTING, LOCKED, TRYING};
use harness::feeds::{empty_filler, RATE};
use harness::independent::{bits_of, block, read, Edition, BLOCK, EDITIONS};
use harness::random::{report, Random};
use harness::runs::{before_whole, promised, Heard, Sent, ALL_SENT, BLOCKS};
use harness::slips;

/// Blocks of a run that are enough to see that lock came and stays.
const FEWER: usize = 12;

/// No receiver waits longer for lock in an undamaged run, whatever its state was.
const LONGEST: usize = 441;

/// The bit with which a fresh state is locked.
fn lock(edition: Edition, heard: &Heard) -> usize {
    let mut receiver = Receiver::fresh(edition);
    let locks = |&bit: &u8| {
        receiver.feed(bit);
        receiver.state().mode == LOCKED
    };
    1 + heard.bits.iter().position(locks).expect("lock")
}

/// A fresh state must be hunting up to the end of the first whole block, trying
/// up to that of the third, and then locked.
fn must_lock_as_promised(edition: Edition, heard: &Heard) {
    let promised = promised(heard.missed);
    let mut receiver = Receiver::fresh(edition);
    for (count, &bit) in (1..=promised).zip(&heard.bits) {
        receiver.feed(bit);
        let mode = match promised - count {
            0 => LOCKED,
            1..=100 => TRYING,
            _ => HUNTING,
        };
        assert_eq!(receiver.state().mode, mode, "{} missed, {count} heard", heard.missed);
    }
    let counts = Receiver::fresh(edition).run(&heard.bits[..promised]);
    let passed = before_whole(heard.missed) as u32;
    assert_eq!(counts, Counts { good: 3, passed, ..Counts::default() }, "{} missed", heard.missed);
}

/// How lock came in many runs.
#[derive(Default)]
struct Waits {
    /// With which bit.
    locks: Vec<usize>,
    /// In how many runs the proviso fails.
    without_proviso: usize,
    /// By how many bits lock was later than promised, earlier if below 0, and in
    /// how many runs.
    off: BTreeMap<isize, usize>,
}

impl Waits {
    /// Fresh states of both editions hear a run. Lock must be as promised where
    /// the proviso holds, and exactly where so much of it as is needed does.
    fn hear(&mut self, heard: &Heard) {
        let promised = promised(heard.missed);
        let expected = heard.first_good_is_whole();
        let proviso = heard.has_the_proviso(promised);
        assert!(expected || !proviso, "the proviso holds, but not what is needed of it");
        let locks = EDITIONS.map(|edition| {
            if expected {
                must_lock_as_promised(edition, heard);
                return promised;
            }
            lock(edition, heard)
        });
        assert_eq!(locks[0], locks[1], "lock depends on the edition");
        assert_eq!(locks[0] == promised, expected, "{} missed", heard.missed);
        self.locks.push(locks[0]);
        self.without_proviso += usize::from(!proviso);
        if !expected {
            *self.off.entry(locks[0] as isize - promised as isize).or_default() += 1;
        }
    }

    fn show(&self, what: &str) {
        report(what, self.locks.len());
        let not_as_promised: usize = self.off.values().sum();
        println!(
            "{what}: {} without the proviso, {not_as_promised} with lock not as promised",
            self.without_proviso
        );
        for (off, runs) in &self.off {
            let when = if *off > 0 { "later" } else { "earlier" };
            println!("{what}: lock {} bits {when} than promised in {runs}", off.unsigned_abs());
        }
    }

    /// Shows how many waits fell into each fifth of a second.
    fn show_seconds(&self) {
        const STEP: usize = RATE / 5;
        let seconds = |bits: usize| bits as f64 / RATE as f64;
        let mut lines = format!("seconds to lock in {} runs", self.locks.len());
        for first in (150..200).step_by(STEP) {
            let last = first + STEP - 1;
            let runs = self.locks.iter().filter(|lock| (first..=last).contains(lock)).count();
            let (from, to) = (seconds(first), seconds(last));
            lines += &format!("\n{from:.2} to {to:.2} {runs:5} {}", "#".repeat(runs / 25));
        }
        let later = self.locks.iter().filter(|&&lock| lock >= 200).count();
        println!("{lines}\nlater        {later:5}");
    }
}

#[test]
fn lock_comes_with_the_third_whole_block() {
    let mut random = Random::named("random runs");
    for (sent, what, count) in [
        (Sent::AnyMessages, "runs of any messages", 10_000),
        (Sent::TwoMessages, "runs of two messages", 2_000),
        (Sent::EmptyFillers, "runs of empty fillers", 200),
        (Sent::Minutes, "runs as a transmitter sends them", 2_000),
    ] {
        let mut waits = Waits::default();
        for round in 0..count {
            let blocks = sent.blocks(EDITIONS[round % 2], &mut random);
            waits.hear(&Heard::of(&blocks, random.below(BLOCK)));
        }
        waits.show(what);
        if matches!(sent, Sent::AnyMessages) {
            waits.show_seconds();
        }
    }
}

#[test]
fn lock_comes_so_from_every_place_of_a_block() {
    const COUNT: usize = 200;
    let mut random = Random::named("every place");
    let mut waits = Waits::default();
    for round in 0..COUNT {
        let sent = ALL_SENT[round % ALL_SENT.len()];
        let blocks = sent.blocks(EDITIONS[round / ALL_SENT.len() % 2], &mut random);
        (0..BLOCK).for_each(|missed| waits.hear(&Heard::of(&blocks, missed)));
    }
    waits.show("runs heard from every place");
}

/// A good window at each place where there can be one, heard from every place
/// up to it.
#[test]
fn lock_is_late_where_the_proviso_fails() {
    let mut random = Random::named("without the proviso");
    let mut waits = Waits::default();
    for slip in 8..=43 {
        for missed in 1..=slip {
            let (pair, _) = slips::good_window_behind(0, slip, &mut random).expect("two blocks");
            let mut blocks = Sent::AnyMessages.blocks(Edition::Of1984, &mut random);
            blocks[..2].copy_from_slice(&pair.map(|(code, word)| block(code, word)));
            let heard = Heard::of(&blocks, missed);
            assert!(!heard.first_good_is_whole(), "slip {slip}, {missed} missed");
            waits.hear(&heard);
        }
    }
    waits.show("runs with a good window before the first whole block");
}

/// The good window begins 25 bits behind the first start. What comes fifty bits
/// behind it is no block, so that the search begins again in the third block.
#[test]
fn one_false_window_delays_lock_by_two_blocks() {
    let mut blocks = vec![block(0, 0); BLOCKS];
    blocks[0] = block(0, 0x009F_0800);
    for missed in 0..BLOCK {
        let heard = Heard::of(&blocks, missed);
        let late = (1..=25).contains(&missed);
        let expected = if late { 300 - missed } else { promised(missed) };
        assert_eq!(heard.first_good_is_whole(), !late, "{missed} missed");
        for edition in EDITIONS {
            assert_eq!(lock(edition, &heard), expected, "{missed} missed");
        }
    }
    println!("a false window 25 bits behind a start: from bits 1 to 25 on lock is 100 bits late");
}

/// Holds a good window twelve bits behind its start when it is sent again.
const REPEATED: (u8, u32) = (15, 0x8500_0000);

/// Two or three blocks that only seem to be there delay lock, and four give it
/// where no block ends.
#[test]
fn a_false_window_that_comes_again() {
    for (times, place) in [(2, 300), (3, 350), (4, 162), (5, 162)] {
        let mut blocks = [block(0, 0); BLOCKS];
        blocks[..times].fill(block(REPEATED.0, REPEATED.1));
        for missed in 1..=12 {
            for edition in EDITIONS {
                let lock = lock(edition, &Heard::of(&blocks, missed));
                assert_eq!(lock, place - missed, "{times} times, {missed} missed");
            }
        }
    }
    println!(
        "a block with a false window: twice, lock 100 bits late; 3 times, 150; 4 times, 38 early"
    );
}

#[test]
fn a_repeated_block_keeps_lock_at_a_wrong_place() {
    const TIMES: usize = 300;
    let blocks = [block(REPEATED.0, REPEATED.1); TIMES];
    for missed in 0..BLOCK {
        let heard = Heard::of(&blocks, missed);
        let wrong = (1..=12).contains(&missed);
        let expected = if wrong { 162 - missed } else { promised(missed) };
        for edition in EDITIONS {
            assert_eq!(lock(edition, &heard), expected, "{missed} missed");
            must_keep_lock(edition, &heard, expected);
        }
    }
    println!("a block with a false window, {TIMES} times: from bits 1 to 12 on lock stays wrong");
}

/// The lock that comes with this bit must stay, and blocks must end where it came.
fn must_keep_lock(edition: Edition, heard: &Heard, lock: usize) {
    let mut receiver = Receiver::fresh(edition);
    receiver.run(&heard.bits[..lock]);
    for (count, &bit) in (1..).zip(&heard.bits[lock..]) {
        receiver.feed(bit);
        let State { mode, bad, waiting, .. } = *receiver.state();
        assert_eq!((mode, bad, waiting.into()), (LOCKED, 0, count % BLOCK), "lock {lock}");
    }
}

/// Whether a receiver is locked and takes the sent blocks for blocks.
fn is_in_step(state: &State, heard: &Heard, count: usize) -> bool {
    (state.mode, usize::from(state.waiting)) == (LOCKED, heard.place_after(count))
}

/// The bit from which on a receiver that began in this state is in step.
fn wait_from(edition: Edition, state: State, heard: &Heard) -> usize {
    let mut receiver = Receiver::going_on_from(edition, state);
    let mut wait = 0;
    for (count, &bit) in (1..).zip(&heard.bits) {
        receiver.feed(bit);
        if !is_in_step(receiver.state(), heard, count) {
            wait = count + 1;
        }
    }
    assert!(wait <= LONGEST, "{wait} bits from {state:?}, {} missed", heard.missed);
    wait
}

#[test]
fn lock_comes_from_any_proper_state() {
    const COUNT: usize = 4_000;
    let mut random = Random::named("any proper state");
    let (mut runs, mut longest) = (0, 0);
    for round in 0..COUNT {
        for edition in EDITIONS {
            let blocks = ALL_SENT[round % ALL_SENT.len()].blocks(edition, &mut random);
            let heard = Heard::of(&blocks[..FEWER], random.below(BLOCK));
            let waiting = random.below(BLOCK);
            let state = random.proper_state(edition).with_waiting(&random.bits(waiting));
            if heard.has_the_proviso(heard.bits.len()) {
                longest = longest.max(wait_from(edition, state, &heard));
                runs += 1;
            }
        }
    }
    report("runs from any proper state", runs);
    println!("runs from any proper state: {longest} bits the longest wait");
}

/// Bits that wait, and a run heard behind them, of which the first window is good
/// but no whole block; `slip` says where it starts.
fn deceiving(waiting: usize, slip: usize, random: &mut Random) -> Option<(Vec<u8>, Heard)> {
    let (pair, window) = slips::good_window_behind(waiting, slip, random)?;
    let mut blocks = pair.map(|(code, word)| block(code, word)).to_vec();
    blocks.extend(Sent::AnyMessages.blocks(Edition::Of1984, random));
    // Of the first block there may be nothing to hear.
    let first = (slip + waiting) / BLOCK;
    let heard = Heard::of(&blocks[first..][..FEWER], (slip + waiting) % BLOCK);
    Some((bits_of(window)[..waiting].to_vec(), heard))
}

/// Where that can be at all. If the window starts near a block's start, the bits
/// that wait must reach beyond the block's first thirteen, or into the next block.
fn can_deceive(waiting: usize, slip: usize) -> bool {
    match slip {
        1..=7 => slip + waiting > 13,
        44..=49 => slip + waiting > 50,
        _ => true,
    }
}

/// The wait where the first window is good: to its end, then up to the loss, then
/// as a fresh state waits.
fn wait_when_deceived(state: &State, slip: usize) -> usize {
    let lost = match (state.mode, state.good) {
        (LOCKED, _) | (TRYING, 2) => 4,
        _ => 1,
    };
    BLOCK - usize::from(state.waiting) + lost * BLOCK + promised(slip)
}

/// What waits and what comes is such that a receiver finds a block where none was
/// sent. Where that cannot be, elimination has tried everything, so that no wait
/// is longer.
#[test]
fn lock_comes_from_states_that_deceive() {
    let mut random = Random::named("states that deceive");
    let (mut runs, mut longest) = (0, 0);
    for (waiting, slip) in
        (1..BLOCK).flat_map(|waiting| (1..BLOCK).map(move |slip| (waiting, slip)))
    {
        for edition in EDITIONS {
            let deceiving = deceiving(waiting, slip, &mut random);
            assert_eq!(deceiving.is_some(), can_deceive(waiting, slip), "{waiting}, {slip}");
            let states = [random.locked_state(), random.proper_state(edition)];
            let proviso = |heard: &Heard| heard.has_the_proviso(heard.bits.len());
            let Some((bits, heard)) = deceiving.filter(|(_, heard)| proviso(heard)) else {
                continue;
            };
            for state in states.map(|state| state.with_waiting(&bits)) {
                let wait = wait_from(edition, state, &heard);
                assert_eq!(wait, wait_when_deceived(&state, slip), "{state:?}, slip {slip}");
                longest = longest.max(wait);
                runs += 1;
            }
        }
    }
    report("runs from states that deceive", runs);
    println!("runs from states that deceive: {longest} bits the longest wait");
}

/// One bit waits, and 49 bits later a block seems to end. Then four are bad, and
/// the search begins eight bits behind a start.
#[test]
fn the_longest_wait() {
    let pair = [(7, 0xD000_0000), (3, 0x2000_0000)];
    assert!(read(&bits_of(slips::window(pair, 8))).is_ok());
    let state = State { mode: LOCKED, ..State::FRESH }.with_waiting(&[1]);
    for edition in EDITIONS {
        let mut blocks = [empty_filler(edition); FEWER];
        blocks[..2].copy_from_slice(&pair.map(|(code, word)| block(code, word)));
        let heard = Heard::of(&blocks, 9);
        assert!(heard.has_the_proviso(heard.bits.len()));
        assert_eq!(wait_from(edition, state, &heard), LONGEST);

        let mut receiver = Receiver::going_on_from(edition, state);
        receiver.run(&heard.bits[..440]);
        assert!(!is_in_step(receiver.state(), &heard, 440));
        receiver.feed(heard.bits[440]);
        assert!(is_in_step(receiver.state(), &heard, 441));
    }
    println!("one state and one run that take {LONGEST} bits");
}
