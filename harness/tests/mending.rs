//! Request No. 8 against the library: what mending puts right, beside a program
//! that tries every change. Also what the example in C must print.

use std::collections::BTreeSet;

use harness::changes;
use harness::compare::{mending, reading};
use harness::face::Mended;
use harness::independent::mending::{making_good, only_change, SPAN};
use harness::independent::packed::{unpack, LARGEST};
use harness::independent::{bits_of, number_of, remainder, BLOCK, PREFIX};
use harness::program::text;
use harness::random::{good_blocks, report, Random};
use harness::refusals::{NO_SUCH_CHANGE, NUMBER_TOO_WIDE, SEVERAL_CHANGES};

/// A change, as it is told and as it is applied.
#[derive(Clone, Copy, Debug)]
struct Told {
    place: u8,
    pattern: u8,
    change: u64,
}

impl Told {
    fn new(place: u8, pattern: u8) -> Self {
        Told { place, pattern, change: u64::from(pattern) << 44 >> place }
    }

    /// Every place and pattern that can be told: the first of the six places is
    /// changed, and none past the end of the block.
    fn all() -> Vec<Self> {
        let patterns = |place: u8| (0b10_0000..=0b11_1111).map(move |six| Told::new(place, six));
        let whole = |told: &Told| told.change.count_ones() == told.pattern.count_ones();
        (0..50).flat_map(patterns).filter(whole).collect()
    }
}

/// The changed block must be mended to the good one and the change be told; mended
/// again, it must stay as it is.
fn must_be_mended(good: u64, told: Told) {
    let Told { place, pattern, change } = told;
    let good = bits_of(good).to_vec();
    let expected = (Mended { refusal: 0, place, pattern }, good.clone());
    assert_eq!(mending(&bits_of(number_of(&good) ^ change)), expected, "{told:?} of {good:?}");
    assert_eq!(mending(&good), (Mended::GOOD, good.clone()), "{good:?} mended again");
}

/// All these changes of each block must be mended.
fn all_must_be_mended(what: &str, blocks: usize, changes: &[Told]) {
    for good in good_blocks(what, blocks) {
        for &told in changes {
            must_be_mended(good, told);
        }
    }
    report(what, blocks * changes.len());
}

#[test]
fn every_change_has_a_remainder_of_its_own() {
    let changes: BTreeSet<u64> = Told::all().iter().map(|told| told.change).collect();
    assert_eq!(changes.len(), 1_471);
    assert_eq!(changes, changes::bursts_within(SPAN).collect());
    let remainders: BTreeSet<u64> = changes.into_iter().map(remainder).collect();
    assert_eq!(remainders.len(), 1_471, "no two leave the same");
    assert!(!remainders.contains(&0), "none leaves 0");
}

/// Fifty bits, random ones or a good block with more or less damage.
fn perhaps_damaged(random: &mut Random, changes: &[Told]) -> u64 {
    let places = 1 + random.below(8);
    match random.below(4) {
        0 => random.number() & LARGEST,
        1 => random.block() ^ random.change(places),
        2 => random.block() ^ PREFIX ^ random.change(1),
        _ => random.block() ^ changes[random.below(changes.len())].change,
    }
}

/// The independent program compares the fault of fifty bits with that of every
/// change. Here each change is applied, and what comes of it is read.
#[test]
fn each_change_applied_and_read() {
    const COUNT: usize = 5_000;
    let mut random = Random::named("each change applied");
    let changes = Told::all();
    let mut mended = 0;
    for _ in 0..COUNT {
        let block = perhaps_damaged(&mut random, &changes);
        let making_good: Vec<u64> = making_good(block).collect();
        let expected = match making_good[..] {
            [] => Err(NO_SUCH_CHANGE),
            [only] => Ok(only),
            _ => Err(SEVERAL_CHANGES),
        };
        assert_eq!(only_change(block), expected, "{block:#o}");
        mended += usize::from(expected.is_ok());
    }
    assert!((COUNT / 4..COUNT * 3 / 4).contains(&mended), "{mended} of {COUNT}");
    report("blocks with every change applied and read", COUNT);
}

/// From the blocks of words 0 and 1, as document 01 gives them.
#[test]
fn the_places_to_look() {
    const ONE: u64 = PREFIX | 1 << 13 | 0x1CF5;
    for (good, received, place, pattern) in [
        // Fifty zeros, and a 1, 48 zeros, a 1.
        (PREFIX, 0, 0, 0b10_0000),
        (PREFIX, PREFIX | 1, 49, 0b10_0000),
        // Past the end of the block the pattern is 0.
        (PREFIX, PREFIX | 0b1011, 46, 0b10_1100),
        (PREFIX, PREFIX | 0b10_1001, 44, 0b10_1001),
        (PREFIX, 0b01_0011 << 44, 0, 0b11_0011),
        (ONE, PREFIX | 0x1CF5, 36, 0b10_0000),
        (ONE, PREFIX | 1 << 13 | 0x75, 37, 0b11_1001),
    ] {
        let told = Told::new(place, pattern);
        assert_eq!(told.change, good ^ received, "{told:?}");
        must_be_mended(good, told);
    }
}

#[test]
fn all_changes_of_a_hundred_blocks() {
    all_must_be_mended("all changes within six places", 100, &Told::all());
}

/// What reading refuses whatever the block, and mending puts right.
#[test]
fn one_place_and_two_neighbours() {
    let mut changes = Told::all();
    changes.retain(|told| matches!(told.pattern, 0b10_0000 | 0b11_0000));
    assert_eq!(changes.len(), 50 + 49);
    for good in good_blocks("one place and two neighbours", 1_000) {
        for told in &changes {
            assert_ne!(reading(&bits_of(good ^ told.change)).refusal, 0, "{told:?} of {good:#o}");
        }
    }
    all_must_be_mended("one place and two neighbours", 1_000, &changes);
}

#[test]
fn good_blocks_are_handed_back() {
    const COUNT: usize = 100_000;
    for good in good_blocks("handed back", COUNT) {
        let bits = bits_of(good);
        assert_eq!(mending(&bits), (Mended::GOOD, bits.to_vec()), "{good:#o}");
    }
    report("good blocks handed back", COUNT);
}

/// A change of the prefix and of places elsewhere is put right only if six
/// neighbouring places hold it, and any other change has to begin with the prefix.
#[test]
fn a_wrong_prefix_is_among_the_changes() {
    let changes = Told::all();
    let elsewhere = || changes.iter().filter(|told| told.place > 0);
    for good in good_blocks("wrong prefixes", 100) {
        for told in elsewhere() {
            let (answer, left) = mending(&bits_of(good ^ PREFIX ^ told.change));
            let within_six = told.change & ((1 << 44) - 1) == 0;
            assert_eq!(left == bits_of(good), within_six, "{told:?} of {good:#o}");
            assert_eq!((answer.place, answer.refusal == 0), (0, left[0] == 1), "{answer:?}");
        }
        // With its first bit inverted this divides evenly, and yet it is no block.
        let (answer, _) = mending(&bits_of(good ^ PREFIX ^ remainder(PREFIX)));
        assert_eq!(answer, Err(NO_SUCH_CHANGE).into(), "{good:#o}");
    }
    report("blocks with a wrong prefix", 100 * (elsewhere().count() + 1));
}

/// What the example in C says of a number in its log.
fn said_of(number: u64) -> String {
    let bits = match unpack(number, BLOCK) {
        Ok(bits) => bits,
        Err(refusal) => return format!("refused with {refusal}: {}", reason_of(refusal)),
    };
    match mending(&bits) {
        (Mended::GOOD, _) => "good".to_string(),
        (Mended { refusal: 0, place, pattern }, left) => {
            let block = number_of(&left);
            format!("mended to 0x{block:013X}, pattern {pattern:06b} from place {place} on")
        }
        (Mended { refusal, .. }, _) => format!("refused with {refusal}: {}", reason_of(refusal)),
    }
}

fn reason_of(refusal: u8) -> &'static str {
    match refusal {
        NUMBER_TOO_WIDE => "a number has a bit above place 49",
        NO_SUCH_CHANGE => "no change within six neighbouring places makes the block good",
        _ => panic!("{refusal} is not in the log"),
    }
}

#[test]
fn the_log_of_the_example() {
    let log = text(text("examples/mend.args").trim_end());
    let said = log.lines().map(|line| {
        let digits = line.strip_prefix("0x").expect("a hexadecimal number");
        let number = u64::from_str_radix(digits, 16).expect("a hexadecimal number");
        format!("0x{number:013X}: {}\n", said_of(number))
    });
    assert_eq!(said.collect::<String>(), text("examples/mend.expected"));
}
