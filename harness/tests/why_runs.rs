//! Request No. 11 against the library: watched runs over feeds with every kind of
//! mishap, whole, split anywhere and bit by bit, with refused runs in between, and
//! from any proper watch on, under both editions. `Watcher` compares watch, answer
//! and counts with the list of what happened, and the counts with a plain run.

use std::collections::BTreeMap;

use harness::compare::{asking, refused_run, Watcher};
use harness::face::{Counts, PackedState, Watch, NO_TIME};
use harness::feeds::{empty_filler, time_block, troubled, MINUTE, MISHAPS};
use harness::independent::receiver::RUN;
use harness::independent::watch::Why;
use harness::independent::{bits_of, calendar, Edition, BLOCK, EDITIONS, PREFIX};
use harness::random::{report, Random};
use harness::refusals::{IMPROPER, NOT_A_BIT, OUT_OF_RANGE, RUN_TOO_LONG};

/// A feed of up to so many minutes, with a mishap to about one block of `every`.
fn any_feed(edition: Edition, minutes: usize, every: usize, random: &mut Random) -> Vec<u8> {
    troubled(edition, random, minutes, every, |random| MISHAPS[random.below(MISHAPS.len())])
}

/// How often the time stood in each of the seven ways.
#[derive(Default)]
struct Tally(BTreeMap<&'static str, usize>);

impl Tally {
    fn count(&mut self, why: Why) {
        *self.0.entry(why.words()).or_default() += 1;
    }

    /// All seven must have been met.
    fn show(&self, what: &str) {
        let shown: Vec<String> =
            self.0.iter().map(|(words, count)| format!("{words} {count}")).collect();
        println!("{what}: {}", shown.join(", "));
        assert_eq!(self.0.len(), 7, "{what}");
    }
}

/// Some minutes of a feed, and then five without a time block, of whose blocks some
/// are damaged: a time that was held is dropped, if lock stays.
fn feed_that_drops(edition: Edition, random: &mut Random) -> Vec<u8> {
    let mut bits = any_feed(edition, 3, 200, random);
    let filler = empty_filler(edition);
    for _ in 0..5 * MINUTE {
        let change = if random.below(5) == 0 { random.change(1) } else { 0 };
        bits.extend(bits_of(filler ^ change));
    }
    bits
}

#[test]
fn a_million_bits_of_random_damage() {
    const COUNT: usize = 1_000_000;
    let mut random = Random::named("random damage");
    for edition in EDITIONS {
        let mut tally = Tally::default();
        let mut count = 0;
        for round in 0.. {
            let every = [2, 5, 10, 30, 100, 300][round % 6];
            let feed = match round % 4 {
                3 => feed_that_drops(edition, &mut random),
                _ => any_feed(edition, 10, every, &mut random),
            };
            let mut watcher = Watcher::fresh(edition);
            feed.iter().for_each(|&bit| tally.count(watcher.feed(bit)));
            count += feed.len();
            if count >= COUNT {
                break;
            }
        }
        tally.show(&format!("random damage, {edition:?}"));
        report(&format!("bits of random damage, {edition:?}, asked after each"), count);
    }
}

/// One watch over all of it, so that its numbers grow.
#[test]
fn a_million_bits_to_one_watch() {
    const COUNT: usize = 1_000_000;
    let mut random = Random::named("one watch");
    for edition in EDITIONS {
        let mut watcher = Watcher::fresh(edition);
        while watcher.watch().fed < COUNT as u64 {
            let every = 2 + random.below(200);
            let feed = any_feed(edition, 10, every, &mut random);
            for bit in feed {
                watcher.feed(bit);
            }
        }
        let Watch { fed, lost, .. } = *watcher.watch();
        assert!(lost > fed / 2, "{lost} of {fed}");
        report(&format!("bits to one watch, {edition:?}, asked after each"), fed as usize);
    }
}

/// Refused runs change nothing: under no edition, too long, of a watch that is not
/// proper, and at a byte that is no bit.
fn be_refused(edition: Edition, watcher: &mut Watcher, random: &mut Random) {
    let watch = *watcher.watch();
    let bits = random.bits(RUN + 1);
    assert_eq!(refused_run(1983, watch, &bits[..50]), OUT_OF_RANGE);
    assert_eq!(refused_run(edition.number(), watch, &bits), RUN_TOO_LONG);
    let improper = Watch { lost: watch.fed + 1, ..watch };
    assert_eq!(refused_run(edition.number(), improper, &bits[..50]), IMPROPER);
    let counts = watcher.run(&[random.not_a_bit(), 0, 1]);
    let waiting = watch.state.waiting.into();
    assert_eq!(counts, Counts { refusal: NOT_A_BIT, waiting, ..Counts::default() });
    assert_eq!(*watcher.watch(), watch);
}

/// A run of all of these bits up to a byte that is none, and of more behind it.
fn run_to_a_bad_bit(watcher: &mut Watcher, piece: &[u8], random: &mut Random) {
    let before = watcher.watch().fed;
    let bytes = [piece, &[random.not_a_bit(), 1, 0]].concat();
    let refusal = if bytes.len() > RUN { RUN_TOO_LONG } else { NOT_A_BIT };
    assert_eq!(watcher.run(&bytes).refusal, refusal);
    if refusal == RUN_TOO_LONG {
        watcher.run(piece);
    }
    assert_eq!(watcher.watch().fed, before + piece.len() as u64);
}

/// The watch after a feed in pieces of any length, some of which end at a byte that
/// is no bit, with refused runs in between.
fn in_pieces(edition: Edition, feed: &[u8], random: &mut Random) -> Watch {
    let mut watcher = Watcher::fresh(edition);
    let mut left = feed;
    while !left.is_empty() {
        let most = [BLOCK, 1_000, RUN][random.below(3)];
        let (piece, rest) = left.split_at((1 + random.below(most)).min(left.len()));
        match random.below(4) {
            0 => run_to_a_bad_bit(&mut watcher, piece, random),
            _ => assert_eq!(watcher.run(piece).refusal, 0),
        }
        watcher.why();
        if random.below(8) == 0 {
            be_refused(edition, &mut watcher, random);
        }
        left = rest;
    }
    *watcher.watch()
}

fn bit_by_bit(edition: Edition, feed: &[u8]) -> Watch {
    let mut watcher = Watcher::fresh(edition);
    for &bit in feed {
        watcher.run(&[bit]);
    }
    *watcher.watch()
}

#[test]
fn pieces_of_any_length_are_as_bit_by_bit() {
    const COUNT: usize = 20;
    let mut random = Random::named("watched pieces");
    let mut bits = 0;
    for round in 0..COUNT {
        for edition in EDITIONS {
            let feed = any_feed(edition, 40, [10, 50, 200][round % 3], &mut random);
            let whole = bit_by_bit(edition, &feed);
            (0..3).for_each(|_| assert_eq!(in_pieces(edition, &feed, &mut random), whole));
            if feed.len() <= RUN {
                let mut watcher = Watcher::fresh(edition);
                watcher.run(&feed);
                assert_eq!(*watcher.watch(), whole, "one run");
            }
            bits += feed.len();
        }
    }
    report("bits of watched feeds, in pieces and bit by bit", bits);
}

/// A block that does something to a watch: one that confirms the held record where
/// there is one and the age is right, another time block, a filler or a bad block.
fn any_block(edition: Edition, watch: &Watch, random: &mut Random) -> u64 {
    let state = watch.state;
    let filler = empty_filler(edition);
    match random.below(6) {
        0 => filler,
        1 => filler ^ random.change(1),
        2 => filler ^ PREFIX,
        3 => time_block(random.usable_record(edition)),
        _ if state.time == NO_TIME => time_block(random.usable_record(edition)),
        _ => {
            let minutes = (usize::from(state.age) + 1) / MINUTE;
            let later = calendar::minutes_later(edition, state.record, minutes.max(1));
            time_block(later.expect("minutes to come"))
        }
    }
}

/// The same watch, where it holds a time, with an age of whole minutes but a block.
fn before_a_minute(watch: Watch, random: &mut Random) -> Watch {
    let mut watch = watch;
    if watch.state.time != NO_TIME {
        watch.state.age = [29, 59, 89, 118, 119][random.below(5)];
    }
    watch
}

/// The watch with as many bits waiting as before, the first ones of this block.
fn awaiting(block: u64, watch: Watch) -> Watch {
    let to_come = BLOCK - usize::from(watch.state.waiting);
    let state = PackedState { bits: block >> to_come << to_come, ..watch.state };
    Watch { state, ..watch }
}

/// Some blocks to a watch, of the first of which a part may be heard already; gives
/// how many bits they had.
fn go_on_with_blocks(edition: Edition, watch: Watch, random: &mut Random) -> usize {
    let first = any_block(edition, &watch, random);
    let watch = if random.below(4) == 0 { watch } else { awaiting(first, watch) };
    let mut watcher = Watcher::going_on_from(edition, watch);
    watcher.why();
    watcher.run(&bits_of(first)[watch.state.waiting.into()..]);
    watcher.why();
    for _ in 0..random.below(6) {
        watcher.run(&bits_of(any_block(edition, watcher.watch(), random)));
        watcher.why();
    }
    (watcher.watch().fed - watch.fed) as usize
}

#[test]
fn any_proper_watch_goes_on() {
    const COUNT: usize = 60_000;
    let mut random = Random::named("proper watches");
    let mut bits = 0;
    for edition in EDITIONS {
        for _ in 0..COUNT {
            let watch = random.proper_watch(edition);
            let watch = before_a_minute(watch, &mut random);
            if watch.fed < u64::MAX - 1_000 {
                bits += go_on_with_blocks(edition, watch, &mut random);
            }
        }
    }
    report("bits to any proper watches", bits);
}

/// Any proper watch is asked, and under the other edition it is proper or not.
#[test]
fn any_proper_watch_is_asked() {
    const COUNT: usize = 300_000;
    let mut random = Random::named("asked watches");
    let mut refused = 0;
    for edition in EDITIONS {
        let mut tally = Tally::default();
        for _ in 0..COUNT {
            let watch = random.proper_watch(edition);
            tally.count(asking(edition.number(), watch).expect("a proper watch"));
            refused += usize::from(asking(edition.other().number(), watch).is_err());
        }
        tally.show(&format!("watches, {edition:?}"));
    }
    assert!(refused > 0);
    report("proper watches asked", 2 * COUNT);
    println!("proper watches asked: {refused} not proper under the other edition");
}
