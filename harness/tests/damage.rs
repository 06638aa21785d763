//! Demand 3 against the library: which damage is never taken for a block, and
//! that the limits are exactly these. What is refused tells the remainder of the
//! changes alone, whatever block they befell.

use std::collections::BTreeSet;

use harness::changes;
use harness::compare::reading;
use harness::face::Block;
use harness::independent::{bits_of, block, remainder, BLOCK, PREFIX};
use harness::random::{good_blocks, report, Random};
use harness::refusals::{WRONG_CHECK_WORD, WRONG_PREFIX};
use harness::slips;

/// What a good block tells whose places are so changed: nothing where the prefix
/// is among them, else the remainder of the changes alone.
fn told(change: u64) -> u16 {
    if change & PREFIX == 0 {
        remainder(change) as u16
    } else {
        0
    }
}

/// The changed block must be refused, with 3 where the prefix changed, else with
/// 4 and the remainder of the changes.
fn must_be_refused(good: u64, change: u64) {
    let expected = match change & PREFIX {
        0 => Block::leaving(told(change)),
        _ => Block::refused(WRONG_PREFIX),
    };
    let answer = reading(&bits_of(good ^ change));
    assert_eq!(answer, expected, "block {good:#o} changed by {change:#o}");
}

/// Every one of the changes of each block must be refused.
fn all_must_be_refused(what: &str, blocks: usize, changes: &[u64]) {
    for good in good_blocks(what, blocks) {
        for &change in changes {
            must_be_refused(good, change);
        }
    }
    report(what, blocks * changes.len());
}

#[test]
fn one_to_three_places() {
    let changes: Vec<u64> = changes::of_one_to_three_places().collect();
    assert_eq!(changes.len(), 50 + 1_225 + 19_600);
    all_must_be_refused("changes of one to three places", 100, &changes);
}

#[test]
fn bursts_within_thirteen_places() {
    let changes: Vec<u64> = changes::bursts_within(13).collect();
    // By the first changed place: behind 38 of them twelve are free, behind
    // the others eleven, ten and so on to none.
    assert_eq!(changes.len(), 38 * 4_096 + 4_095);
    all_must_be_refused("bursts within thirteen places", 10, &changes);
}

#[test]
fn two_groups_of_two_places() {
    let changes: Vec<u64> = changes::within_two_groups().collect();
    // One place or two neighbours, 99 in all; or two such groups that begin at
    // least two places apart: 48 where the second is the last place alone,
    // 1,128 places for the others, with two patterns in each full group.
    assert_eq!(changes.len(), 99 + 48 * 2 + 1_128 * 4);
    all_must_be_refused("changes within two groups", 100, &changes);
}

#[test]
fn a_million_odd_changes() {
    const COUNT: usize = 1_000_000;
    let mut random = Random::named("odd changes");
    for good in good_blocks("odd changes of", COUNT) {
        let places = 1 + 2 * random.below(BLOCK / 2);
        must_be_refused(good, random.change(places));
    }
    report("odd changes", COUNT);
}

#[test]
fn what_a_remainder_says_of_the_changes() {
    let left = |change: u64| reading(&bits_of(PREFIX ^ change)).remainder;
    let single: BTreeSet<u16> = (0..BLOCK - 1).map(|place| left(1 << place)).collect();
    assert_eq!(single.len(), 49, "one changed place is told from every other");
    for change in changes::of_one_to_three_places().filter(|change| change & PREFIX == 0) {
        let told = left(change);
        // The generator has an even number of ones, so division keeps odd and even apart.
        assert_eq!(told.count_ones() % 2, change.count_ones() % 2, "change {change:#o}");
        if change.count_ones() == 2 {
            assert!(!single.contains(&told), "change {change:#o}");
        }
    }
}

/// Counts the changes, and those of them that divide evenly. The library must
/// take a block changed by one of these, unless the prefix changed too.
fn counted(changes: impl Iterator<Item = u64>) -> (usize, usize) {
    let good = good_blocks("limits", 3)[2];
    let (mut all, mut even) = (0, 0);
    for change in changes {
        let divides = remainder(change) == 0;
        let answer = reading(&bits_of(good ^ change));
        let taken = answer.refusal == 0;
        assert_eq!(taken, divides && change & PREFIX == 0, "change {change:#o}");
        assert_eq!(answer.remainder, told(change), "change {change:#o}");
        all += 1;
        even += usize::from(divides);
    }
    (all, even)
}

#[test]
fn where_the_promise_about_changes_ends() {
    assert_eq!(counted(changes::of_places(4)), (230_300, 32));
    // The report prints half of these shares for bursts of 14 and of more.
    for (span, share) in [(14, 4_096), (15, 8_192)] {
        let (all, even) = counted(changes::bursts_spanning(span));
        assert_eq!(all, even * share, "bursts of {span} places");
        println!("bursts of {span} places: {even} of {all} divide evenly, one in {share}");
    }
}

/// Every named window in a run of such blocks must be refused.
fn windows_must_be_refused(what: &str, next: impl FnMut() -> u64) {
    let blocks: Vec<u64> = std::iter::repeat_with(next).take(100_000).collect();
    let run: Vec<u8> = blocks.iter().flat_map(|&sent| bits_of(sent)).collect();
    let mut count = 0;
    for start in (0..run.len() - BLOCK).step_by(BLOCK) {
        for slip in slips::REFUSED {
            let refusal = reading(&run[start + slip..][..BLOCK]).refusal;
            assert!(matches!(refusal, WRONG_PREFIX | WRONG_CHECK_WORD), "slip {slip}");
            count += 1;
        }
    }
    report(what, count);
}

#[test]
fn slipped_windows_in_long_runs() {
    let mut random = Random::named("runs");
    windows_must_be_refused("slips in runs of random blocks", || random.block());
    windows_must_be_refused("slips in runs of nearly empty blocks", || {
        block(0, random.number() as u32 & random.number() as u32 & random.number() as u32)
    });
    let mut sent = random.block();
    windows_must_be_refused("slips in runs of repeated blocks", || {
        if random.below(4) == 0 {
            sent = random.block();
        }
        sent
    });
}

#[test]
fn where_the_promise_about_slips_ends() {
    for slip in slips::REFUSED {
        assert_eq!(slips::good_window(slip), None, "slip {slip}, whatever the messages");
    }
    for slip in 8..=43 {
        let pair = slips::good_window(slip).expect("two blocks with a good window");
        let window = bits_of(slips::window(pair, slip));
        assert_eq!(reading(&window).refusal, 0, "slip {slip}");
    }
}
