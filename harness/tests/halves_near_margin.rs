//! Request No. 1 against the library: halves whose difference, after its one rounding,
//! is the margin or a unit beside it, and differences halfway between two floats.

use std::cmp::Ordering;

use harness::compare::deciding_halves;
use harness::random::{report, Random};
use harness::readings::{any_size, units_from, with_any_sign, Halves, LARGEST, LARGEST_MARGIN};

/// A margin above zero: of any size, anywhere in the range alike, or around a power of
/// 2, where the unit changes.
fn any_margin(random: &mut Random) -> f32 {
    let part = (1 + random.below(1 << 20)) as f32 / (1 << 20) as f32;
    match random.below(4) {
        0 => any_size(random),
        1 => {
            let power = f32::from_bits((1 + random.below(133) as u32) << 23);
            units_from(power, random.below(5) as i32 - 2)
        }
        _ => LARGEST_MARGIN * part,
    }
}

/// A half that may have a partner so far away.
fn first_half(random: &mut Random, margin: f32) -> f32 {
    let part = random.below(1 << 24) as f32 / (1 << 24) as f32;
    let size = match random.below(4) {
        _ if margin > LARGEST => LARGEST - (LARGEST_MARGIN - margin) * part,
        0 => any_size(random).min(margin),
        1 => units_from(margin, random.below(9) as i32 - 4),
        _ => 2.0 * margin * part,
    };
    with_any_sign(random, size)
}

/// Such halves, and whether they differ by less than the margin, by just as much or by
/// more: never by more than a unit. They are drawn until they are in range.
fn near(random: &mut Random, margin: f32) -> (Halves, Ordering) {
    let is_reading = |half: f32| half.abs() <= LARGEST;
    loop {
        let first = first_half(random, margin);
        let second = first + with_any_sign(random, margin);
        let second = units_from(second, random.below(5) as i32 - 2);
        let difference = (first - second).abs();
        let beside = difference.to_bits().abs_diff(margin.to_bits());
        if is_reading(first) && is_reading(second) && beside <= 1 {
            return ([first, second], difference.total_cmp(&margin));
        }
    }
}

/// Halves with one margin, in both polarities.
fn must_be_decided(halves: &[(Halves, Ordering)], margin: f32) {
    let all: Vec<Halves> = halves.iter().map(|&(halves, _)| halves).collect();
    for polarity in [0, 1] {
        let bits = deciding_halves(polarity, &all, margin, polarity);
        for (&([first, second], difference), bit) in halves.iter().zip(bits) {
            let decided = u8::from(first > second) ^ polarity;
            let expected = if difference.is_lt() { 0 } else { decided };
            assert_eq!(bit, expected, "{first:?}, {second:?}, margin {margin:?}");
        }
    }
}

/// Whether the difference had to be rounded.
fn is_rounded([first, second]: Halves) -> bool {
    f64::from(first) - f64::from(second) != f64::from(first - second)
}

#[test]
fn ten_million_halves_near_the_margin() {
    const MARGINS: usize = 10_000;
    const EACH: usize = 1_000;
    const COUNT: usize = MARGINS * EACH;
    let mut random = Random::named("near the margin");
    let (mut less, mut equal, mut rounded) = (0, 0, 0);
    for _ in 0..MARGINS {
        let margin = any_margin(&mut random);
        let halves: Vec<_> = (0..EACH).map(|_| near(&mut random, margin)).collect();
        must_be_decided(&halves, margin);
        less += halves.iter().filter(|(_, difference)| difference.is_lt()).count();
        equal += halves.iter().filter(|(_, difference)| difference.is_eq()).count();
        rounded += halves.iter().filter(|&&(halves, _)| is_rounded(halves)).count();
    }
    let more = COUNT - less - equal;
    println!(
        "{less} by less than the margin, {equal} by as much, {more} by more; {rounded} rounded"
    );
    assert!(less.min(equal).min(more).min(rounded) > COUNT / 10);
    report("halves near the margin", 2 * COUNT);
}

/// Two halves of 24 digits whose difference has 25 and ends in 1, counted in units of
/// this power of 2. What it is rounded to is reckoned with whole numbers.
#[test]
fn differences_halfway_between_two_floats() {
    const SUMS: usize = 1_000;
    const EACH: usize = 1_000;
    let mut random = Random::named("halfway");
    for _ in 0..SUMS {
        // Up to 2^24 units of 2^-19 are 32 degrees.
        let unit = f32::from_bits((127 - 19 - random.below(100) as u32) << 23);
        let sum = (1 << 24) + 1 + 2 * random.below((1 << 23) - 1);
        let lower = sum / 2;
        let rounded = lower + lower % 2;
        let sizes: Vec<[usize; 2]> = (0..EACH).map(|_| parts(&mut random, sum)).collect();
        for halved in [rounded - 1, rounded, rounded + 1] {
            let margin = 2.0 * halved as f32 * unit;
            let with = |&[up, down]: &[usize; 2]| {
                let [up, down] = [up, down].map(|size| size as f32 * unit);
                let halves = if random.below(2) == 0 { [up, -down] } else { [-down, up] };
                (halves, rounded.cmp(&halved))
            };
            must_be_decided(&sizes.iter().map(with).collect::<Vec<_>>(), margin);
        }
    }
    report("differences halfway between two floats", 6 * SUMS * EACH);
}

/// Two numbers with this sum, neither above 2^24.
fn parts(random: &mut Random, sum: usize) -> [usize; 2] {
    const MOST: usize = 1 << 24;
    let least = sum - MOST;
    let first = least + random.below(MOST - least + 1);
    [first, sum - first]
}
