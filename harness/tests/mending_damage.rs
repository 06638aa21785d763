//! Request No. 8 against the library: what becomes of damage that six neighbouring
//! places do not hold, and the figure that warns of it.

use harness::changes;
use harness::compare::mending;
use harness::face::Mended;
use harness::independent::bits_of;
use harness::independent::packed::LARGEST;
use harness::random::{good_blocks, report, Random};

/// What becomes of a damaged block, in the order of the figure's columns.
#[derive(Clone, Copy, Debug, PartialEq)]
enum Outcome {
    /// Mended to what was sent.
    Rightly,
    /// Mended to another block.
    Wrongly,
    Refused,
    /// It is another good block, which nothing mends.
    Taken,
}

/// How many blocks had each outcome.
type Counts = [usize; 4];

/// What becomes of a good block that is so changed.
fn outcome(sent: u64, change: u64) -> Outcome {
    match mending(&bits_of(sent ^ change)) {
        (Mended::GOOD, _) => Outcome::Taken,
        (Mended { refusal: 0, .. }, left) if left == bits_of(sent) => Outcome::Rightly,
        (Mended { refusal: 0, .. }, _) => Outcome::Wrongly,
        _ => Outcome::Refused,
    }
}

/// Whether six neighbouring places hold a change.
fn within_six(change: u64) -> bool {
    change >> change.trailing_zeros() < 1 << 6
}

/// A row of the figure, in per cent.
fn row(title: &str, counts: Counts) -> String {
    let all: usize = counts.iter().sum();
    let shares = counts.map(|count| format!("{:>9.2}", count as f64 * 100.0 / all as f64));
    format!("{title:>6}{}\n", shares.concat())
}

/// The figure, from the outcomes for each number of changed places. It is printed
/// at once, so that no other test prints between its rows.
fn show(damaged: &[(usize, Counts)]) {
    let mut figure = "of the blocks with so many places changed at random, in per cent: mended\n\
        rightly, mended to another block, refused, taken as good without mending\n\
        places  rightly  another  refused    taken\n"
        .to_string();
    let mut together = [0; 4];
    for &(places, counts) in damaged {
        figure += &row(&places.to_string(), counts);
        together.iter_mut().zip(counts).for_each(|(sum, count)| *sum += count);
    }
    assert!(together.iter().all(|&count| count > 0), "{together:?}");
    print!("{figure}{}", row("all", together));
}

/// README quotes the figure, so it is the same whatever the seed.
#[test]
fn two_million_random_changes_of_two_to_eight_places() {
    const COUNT: usize = 2_000_000;
    let mut random = Random::fixed();
    let mut damaged: Vec<(usize, Counts)> = (2..=8).map(|places| (places, [0; 4])).collect();
    for round in 0..COUNT {
        let (places, counts) = &mut damaged[round % 7];
        let (sent, change) = (random.block(), random.change(*places));
        let outcome = outcome(sent, change);
        let what = || format!("{sent:#o} changed by {change:#o}: {outcome:?}");
        assert_eq!(outcome == Outcome::Rightly, within_six(change), "{}", what());
        // Up to three places, and any odd number of them, are never taken for a block.
        let may_be_taken = matches!(places, 4 | 6 | 8);
        assert!(outcome != Outcome::Taken || may_be_taken, "{}", what());
        counts[outcome as usize] += 1;
    }
    show(&damaged);
    println!("random changes of two to eight places: {COUNT} compared, whatever the seed");
}

#[test]
fn a_million_times_fifty_random_bits() {
    const COUNT: usize = 1_000_000;
    let mut random = Random::named("fifty random bits");
    let [mut good, mut mended, mut refused] = [0; 3];
    for _ in 0..COUNT {
        match mending(&bits_of(random.number() & LARGEST)).0 {
            Mended::GOOD => good += 1,
            Mended { refusal: 0, .. } => mended += 1,
            _ => refused += 1,
        }
    }
    // One in 16,384 is good, and 1,471 of as many are a change away from a good block.
    assert!(good > 0 && (80_000..100_000).contains(&mended), "{good} good, {mended} mended");
    println!("fifty random bits: {good} good, {mended} mended, {refused} refused");
    report("fifty random bits", COUNT);
}

/// Where the report's sentence ends, that any burst of six or less can be put right.
#[test]
fn bursts_of_seven_places() {
    let bursts: Vec<u64> = changes::bursts_spanning(7).collect();
    assert_eq!(bursts.len(), 44 * 32);
    for sent in good_blocks("bursts of seven", 100) {
        let mut counts = [0; 4];
        bursts.iter().for_each(|&burst| counts[outcome(sent, burst) as usize] += 1);
        // As found by a calculation outside this project.
        assert_eq!(counts, [0, 196, 1_212, 0], "{sent:#o}");
    }
    println!("bursts of seven places: of 1408, 196 are mended to another block, 1212 refused");
    report("bursts of seven places", 100 * bursts.len());
}
