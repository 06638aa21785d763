//! The library's receiver against the history of what it was fed: state and
//! counts after every bit and after every run, under both editions.

use harness::compare::Receiver;
use harness::face::{Counts, Record, CANDIDATE, CONFIRMED, HUNTING, LOCKED, NO_TIME, TRYING};
use harness::feeds::{
    bits_of_all, empty_filler, time_block, troubled, Mishap, Sender, MINUTE, MISHAPS,
};
use harness::independent::receiver::RUN;
use harness::independent::{bits_of, block, calendar, Edition, BLOCK, EDITIONS, PREFIX};
use harness::random::{report, Random};
use harness::refusals::NOT_A_BIT;
use harness::slips;

/// 28 December 1986, 23:58, in 1984. The next day is in the first week of 1987.
const RECORD: Record =
    Record { leap: 2, start_day: 3, week: 52, weekday: 7, hour: 23, minute: 58, offset: 0 };

/// What is fed under an edition.
#[derive(Clone, Copy)]
struct Case {
    edition: Edition,
    record: Record,
    filler: u64,
    /// A filler with one bit changed.
    damaged: u64,
    /// The filler with a prefix 0, which tells no remainder.
    without_prefix: u64,
}

fn cases() -> [Case; 2] {
    EDITIONS.map(|edition| {
        let filler = empty_filler(edition);
        Case {
            edition,
            record: edition.telling(RECORD),
            filler,
            damaged: filler ^ 1,
            without_prefix: filler ^ PREFIX ^ 0b1000,
        }
    })
}

impl Case {
    /// The blocks of a minute, the last of which tells this record.
    fn minute(self, record: Record) -> Vec<u64> {
        Sender::of(self.edition, record).minute(&mut Random::named("a minute")).to_vec()
    }

    /// What is told so many minutes later.
    fn later(self, minutes: usize) -> Record {
        calendar::minutes_later(self.edition, self.record, minutes).expect("minutes to come")
    }

    /// Blocks after which a receiver holds the record, as a candidate or confirmed.
    fn blocks_to_hold(self, time: u8) -> Vec<u64> {
        let before = Record { minute: self.record.minute - 1, ..self.record };
        let first = if time == CONFIRMED { self.minute(before) } else { Vec::new() };
        let blocks = [first, self.minute(self.record)].concat();
        let state = *self.after(&blocks).state();
        assert_eq!((state.time, state.record, state.age), (time, self.record, 0));
        blocks
    }

    /// A receiver that was fed these blocks.
    fn after(self, blocks: &[u64]) -> Receiver {
        let mut receiver = Receiver::fresh(self.edition);
        receiver.run(&bits_of_all(blocks));
        receiver
    }

    /// What a run of these blocks counts in a receiver that three fillers locked.
    fn counts_when_locked(self, blocks: &[u64]) -> Counts {
        self.after(&[self.filler; 3]).run(&bits_of_all(blocks))
    }
}

/// Runs a feed in pieces of random lengths, and gives their counts in all.
fn run_in_pieces(receiver: &mut Receiver, feed: &[u8], random: &mut Random) -> Counts {
    let mut all = Counts::default();
    let mut left = feed;
    let before = u32::from(receiver.state().waiting);
    while !left.is_empty() {
        let most = [BLOCK, 1_000, RUN][random.below(3)];
        let (piece, rest) = left.split_at((1 + random.below(most)).min(left.len()));
        let counts = receiver.run(piece);
        all.good += counts.good;
        all.bad += counts.bad;
        all.passed += counts.passed;
        all.waiting = counts.waiting;
        if counts.remainder != 0 {
            all.remainder = counts.remainder;
        }
        left = rest;
    }
    let used = BLOCK as u32 * (all.good + all.bad) + all.passed + all.waiting;
    assert_eq!(before + feed.len() as u32, used, "every bit is counted once");
    all
}

#[test]
fn the_stated_example() {
    for edition in EDITIONS {
        let mut receiver = Receiver::fresh(edition);
        let bits = bits_of_all(&[PREFIX; 3]);
        receiver.run(&bits[..149]);
        assert_eq!((receiver.state().mode, receiver.state().good), (TRYING, 2));
        receiver.feed(bits[149]);
        assert_eq!(receiver.state().mode, LOCKED);
        let counts = Receiver::fresh(edition).run(&bits);
        assert_eq!(counts, Counts { good: 3, ..Counts::default() });
    }
}

#[test]
fn lock_comes_with_three_good_blocks_and_goes_with_four_bad_ones() {
    for case in cases() {
        let Case { filler, damaged, .. } = case;
        for (blocks, mode) in [
            (vec![filler; 1], TRYING),
            (vec![filler; 2], TRYING),
            (vec![filler; 3], LOCKED),
            (vec![filler, damaged], HUNTING),
            (vec![filler, filler, damaged], HUNTING),
        ] {
            assert_eq!(case.after(&blocks).state().mode, mode, "{} blocks", blocks.len());
        }
        for (bad, mode) in [(3, LOCKED), (4, HUNTING)] {
            let receiver = case.after(&[[filler].repeat(3), [damaged].repeat(bad)].concat());
            assert_eq!(receiver.state().mode, mode, "{bad} bad blocks");
        }
        let interrupted = [[damaged].repeat(3), vec![filler]].concat().repeat(5);
        let receiver = case.after(&[[filler].repeat(3), interrupted].concat());
        assert_eq!((receiver.state().mode, receiver.state().bad), (LOCKED, 0));
    }
}

#[test]
fn a_run_tells_the_last_remainder() {
    for case in cases() {
        let Case { filler, without_prefix, .. } = case;
        // A changed bit of the check word leaves itself.
        let [one, four] = [filler ^ 1, filler ^ 4];
        for (blocks, bad, remainder) in [
            (vec![], 0, 0),
            (vec![filler; 5], 0, 0),
            (vec![one], 1, 1),
            (vec![filler, one, filler], 1, 1),
            (vec![one, filler, four], 2, 4),
            (vec![four, one], 2, 1),
            (vec![without_prefix], 1, 0),
            // A bad block that tells none does not clear what was told.
            (vec![one, without_prefix], 2, 1),
            (vec![without_prefix, one, without_prefix, filler], 3, 1),
            // The block that loses the lock tells, and what is passed over behind it
            // changes nothing.
            (vec![one, one, one, four], 4, 4),
            (vec![one, one, four, without_prefix, one, one], 4, 4),
            // Behind the loss a new search begins, and its bad block tells.
            (vec![one, one, one, one, filler, four], 5, 4),
            (vec![one, one, one, one, filler, without_prefix], 5, 1),
        ] {
            let counts = case.counts_when_locked(&blocks);
            assert_eq!((counts.bad, counts.remainder), (bad, remainder), "{blocks:x?}");
        }
    }
}

#[test]
fn a_bad_block_tells_when_trying_and_a_window_passed_over_does_not() {
    for case in cases() {
        let Case { filler, damaged, without_prefix, .. } = case;
        for (blocks, bad, remainder) in [
            (vec![damaged], 0, 0),
            (vec![damaged; 4], 0, 0),
            (vec![filler, damaged], 1, 1),
            (vec![filler, filler, damaged], 1, 1),
            (vec![filler, without_prefix], 1, 0),
            (vec![damaged, filler, without_prefix], 1, 0),
        ] {
            let counts = Receiver::fresh(case.edition).run(&bits_of_all(&blocks));
            assert_eq!((counts.bad, counts.remainder), (bad, remainder), "{blocks:x?}");
        }
    }
}

#[test]
fn a_remainder_belongs_to_the_call_that_used_the_block_up() {
    for case in cases() {
        let Case { filler, damaged, .. } = case;
        let bits = bits_of(damaged);
        let mut receiver = case.after(&[filler; 3]);
        for (place, &bit) in bits.iter().enumerate() {
            let counts = receiver.feed(bit);
            assert_eq!((counts.bad, counts.remainder), if place == 49 { (1, 1) } else { (0, 0) });
        }
        assert_eq!(receiver.run(&bits_of(filler)).remainder, 0);
        assert_eq!(receiver.run(&bits[..49]).remainder, 0);
        assert_eq!(receiver.run(&bits[49..]).remainder, 1);
        assert_eq!(receiver.run(&[]).remainder, 0);
    }
}

#[test]
fn a_run_refused_with_1_tells_of_the_bits_before() {
    for case in cases() {
        let Case { filler, damaged, .. } = case;
        let bits = bits_of_all(&[damaged, filler, filler ^ 4]);
        for place in 0..=bits.len() {
            let mut heard = bits[..place].to_vec();
            heard.extend([2, 1, 1]);
            let counts = case.after(&[filler; 3]).run(&heard);
            let remainder = [0, 1, 1, 4][place / BLOCK];
            assert_eq!((counts.refusal, counts.remainder), (NOT_A_BIT, remainder), "{place} bits");
        }
        assert_eq!(case.after(&[filler, damaged]).feed(2).remainder, 0);
    }
}

#[test]
fn the_blocks_that_give_lock_are_not_offered() {
    for case in cases() {
        let told = time_block(case.record);
        assert_eq!(case.after(&[told; 3]).state().time, NO_TIME);
        assert_eq!(case.after(&[told; 4]).state().time, CANDIDATE);
    }
}

#[test]
fn a_time_is_confirmed_one_to_four_minutes_later_and_not_a_block_sooner_or_later() {
    for case in cases() {
        for held in [CANDIDATE, CONFIRMED] {
            let start = case.blocks_to_hold(held);
            for age in 1..=150 {
                let missed = [&start[..], &[case.filler].repeat(age - 1)].concat();
                (0..=5).for_each(|minutes| must_confirm_or_not(case, &missed, age, minutes));
            }
        }
    }
}

/// A time block that tells so many minutes later comes when the record is so many
/// blocks old: only whole minutes confirm.
fn must_confirm_or_not(case: Case, missed: &[u64], age: usize, minutes: usize) {
    let told = case.later(minutes);
    let state = *case.after(&[missed, &[time_block(told)]].concat()).state();
    let confirms = matches!((age, minutes), (30, 1) | (60, 2) | (90, 3) | (120, 4));
    let time = if confirms { CONFIRMED } else { CANDIDATE };
    assert_eq!(
        (state.time, state.record, state.age),
        (time, told, 0),
        "{minutes} minutes later at age {age}, {:?}",
        case.edition
    );
}

#[test]
fn another_offset_confirms_and_another_time_does_not() {
    for case in cases() {
        let start = case.blocks_to_hold(CANDIDATE);
        for minutes in 1..=4 {
            let missed = [case.filler].repeat((minutes - 1) * MINUTE);
            let right = case.later(minutes);
            for (told, time) in [
                (Record { offset: 2, ..right }, CONFIRMED),
                (Record { offset: -32, ..right }, CONFIRMED),
                (Record { offset: 31, ..right }, CONFIRMED),
                (Record { hour: 22, ..right }, CANDIDATE),
                (case.record, CANDIDATE),
                (case.later(minutes - 1), CANDIDATE),
                (case.later(minutes + 1), CANDIDATE),
            ] {
                let state =
                    *case.after(&[&start[..], &missed, &case.minute(told)].concat()).state();
                assert_eq!((state.time, state.record), (time, told), "after {minutes} minutes");
            }
        }
    }
}

#[test]
fn bad_blocks_age_the_time() {
    for case in cases() {
        let Case { filler, damaged, record, .. } = case;
        for time in [CANDIDATE, CONFIRMED] {
            let mut blocks = case.blocks_to_hold(time);
            let state = |blocks: &[u64]| *case.after(blocks).state();
            for age in 1..=119 {
                blocks.push(if age % 4 == 0 { filler } else { damaged });
                let state = state(&blocks);
                assert_eq!((state.time, state.record, state.age), (time, record, age));
            }
            blocks.push(filler);
            assert_eq!((state(&blocks).mode, state(&blocks).time), (LOCKED, NO_TIME), "age 120");
        }
    }
}

#[test]
fn a_lost_feed_leaves_no_proof_to_the_next() {
    for case in cases() {
        let Case { filler, damaged, .. } = case;
        let lost = [case.blocks_to_hold(CONFIRMED), vec![damaged; 4]].concat();
        assert_eq!(*case.after(&lost).state(), harness::face::fresh());
        // The next time block comes when it would have confirmed.
        for minutes in 1..=4 {
            let mut blocks = [&lost[..], &[filler].repeat(minutes * MINUTE - 5)].concat();
            assert_eq!(
                (case.after(&blocks).state().mode, case.after(&blocks).state().time),
                (LOCKED, NO_TIME)
            );
            blocks.push(time_block(case.later(minutes)));
            assert_eq!(case.after(&blocks).state().time, CANDIDATE, "after {minutes} minutes");
        }
    }
}

#[test]
fn long_clean_feeds() {
    const MINUTES: usize = 6_000;
    let mut random = Random::named("clean feeds");
    // Over the end of a year of 52 weeks, and of one of 53: 3 January 1982.
    let week_53 = Record { leap: 1, start_day: 4, week: 53, hour: 20, ..RECORD };
    for edition in EDITIONS {
        let [year, long_year] = [RECORD, week_53].map(|record| edition.telling(record));
        for record in [year, long_year, random.usable_record(edition)] {
            let mut sender = Sender::of(edition, record);
            let mut receiver = Receiver::fresh(edition);
            for minute in 0..MINUTES {
                let expected = sender.next;
                let counts = receiver.run(&sender.minutes(&mut random, 1));
                assert_eq!(counts, Counts { good: 30, ..Counts::default() });
                let time = if minute == 0 { CANDIDATE } else { CONFIRMED };
                let state = receiver.state();
                assert_eq!((state.time, state.age, state.record), (time, 0, expected));
            }
        }
    }
    report("bits of clean feeds", 2 * 3 * MINUTES * MINUTE * BLOCK);
}

/// Feeds with this mishap, bit by bit; gives how many bits they had.
fn bit_by_bit(edition: Edition, mishap: Mishap, random: &mut Random) -> usize {
    // How often a bit left the receiver in each mode and with each time.
    let mut modes = [0; 3];
    let mut times = [0; 3];
    for every in [2, 5, 20, 50, 100, 200, 500, 1_000] {
        let feed = troubled(edition, random, 12, every, |_| mishap);
        let mut receiver = Receiver::fresh(edition);
        for bit in feed {
            receiver.feed(bit);
            modes[usize::from(receiver.state().mode)] += 1;
            times[usize::from(receiver.state().time)] += 1;
        }
    }
    assert!(
        !modes.contains(&0) && !times.contains(&0),
        "{mishap:?}, {edition:?}: {modes:?}, {times:?}"
    );
    modes.iter().sum()
}

#[test]
fn every_mishap_bit_by_bit() {
    let mut random = Random::named("mishaps bit by bit");
    let mut count = 0;
    for mishap in MISHAPS {
        for edition in EDITIONS {
            count += bit_by_bit(edition, mishap, &mut random);
        }
    }
    report("bits of feeds with mishaps, bit by bit", count);
}

#[test]
fn every_mishap_in_runs() {
    let mut random = Random::named("mishaps in runs");
    let mut count = 0;
    for round in 0..1_000 {
        let edition = EDITIONS[round % 2];
        let mishap = MISHAPS.get(round / 2 % (MISHAPS.len() + 1));
        let every = 2 + random.below(200);
        let any = |random: &mut Random| MISHAPS[random.below(MISHAPS.len())];
        let feed = troubled(edition, &mut random, 60, every, |random| {
            mishap.copied().unwrap_or_else(|| any(random))
        });
        run_in_pieces(&mut Receiver::fresh(edition), &feed, &mut random);
        count += feed.len();
    }
    report("bits of feeds with mishaps, in runs", count);
}

#[test]
fn random_bits() {
    const COUNT: usize = 30_000_000;
    for edition in EDITIONS {
        let mut receiver = Receiver::fresh(edition);
        let bits = Random::named("random bits").bits(COUNT);
        let counts = run_in_pieces(&mut receiver, &bits, &mut Random::named("pieces"));
        // About one window in 16,384 is good.
        let few = COUNT as u32 / 20_000..COUNT as u32 / 14_000;
        assert!(few.contains(&counts.good), "{counts:?}");
        assert!((1..=8191).contains(&counts.remainder), "{counts:?}");
    }
    report("random bits", 2 * COUNT);
}

#[test]
fn bits_that_are_mostly_the_same() {
    const COUNT: usize = 5_000_000;
    let mut random = Random::named("mostly the same");
    // A 1 and 49 zeros are a good block, so few ones among zeros give many.
    for rare in [8, 50, 400] {
        for common in [0, 1] {
            let bits: Vec<u8> =
                (0..COUNT).map(|_| common ^ u8::from(random.below(rare) == 0)).collect();
            for edition in EDITIONS {
                run_in_pieces(&mut Receiver::fresh(edition), &bits, &mut random);
            }
        }
    }
    report("bits that are mostly the same", 2 * 6 * COUNT);
}

/// A block repeated so many times, the first bits of it missed, and a minute of
/// another feed; gives how many bits there were.
fn repeated_block(edition: Edition, repeated: &[u8], missed: usize, random: &mut Random) -> usize {
    let feed = Sender::any(edition, random).minutes(random, 1);
    let bits = [&repeated[missed..], &feed].concat();
    let mut receiver = Receiver::fresh(edition);
    for &bit in &bits {
        receiver.feed(bit);
    }
    bits.len()
}

#[test]
fn false_windows_of_repeated_blocks() {
    assert_eq!(slips::good_window_of_repeated(12), Some((15, 0x8500_0000)));
    let mut random = Random::named("repeated blocks");
    let mut count = 0;
    for (code, word) in (1..BLOCK).filter_map(slips::good_window_of_repeated) {
        for times in 2..=8 {
            let repeated = bits_of(block(code, word)).repeat(times);
            for missed in 0..BLOCK {
                for edition in EDITIONS {
                    count += repeated_block(edition, &repeated, missed, &mut random);
                }
            }
        }
    }
    report("bits of repeated blocks with false windows", count);
}

#[test]
fn a_false_window_can_give_lock() {
    // Begun anywhere from the second bit to the thirteenth, the search meets
    // the false window first.
    let repeated = bits_of(block(15, 0x8500_0000)).repeat(4);
    for edition in EDITIONS {
        let mut receiver = Receiver::fresh(edition);
        let counts = receiver.run(&repeated[1..12 + 3 * BLOCK]);
        assert_eq!(counts, Counts { good: 3, passed: 11, ..Counts::default() });
        assert_eq!(receiver.state().mode, LOCKED);
    }
}
