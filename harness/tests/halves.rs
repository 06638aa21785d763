//! Request No. 1 against the library: which bit two halves give, beside a program that
//! takes readings as whole numbers.

use std::iter::repeat_with;

use harness::compare::deciding_halves;
use harness::random::{report, Random};
use harness::readings::{
    any_reading, even_reading, special, units_from, Halves, LARGEST, LARGEST_MARGIN,
};

/// The smallest number above zero.
const TINY: f32 = f32::from_bits(1);

/// What may be decided.
const ONE: Option<u8> = Some(1);
const ZERO: Option<u8> = Some(0);
const DOUBTFUL: Option<u8> = None;

/// How a decision goes out under a polarity.
fn sent(decision: Option<u8>, polarity: u8) -> u8 {
    match (decision, polarity) {
        (DOUBTFUL, _) => 0,
        (Some(bit), 0) => bit,
        (Some(bit), _) => 1 - bit,
    }
}

/// What must have been decided where these bits went out under either polarity.
fn decision_of([straight, exchanged]: [u8; 2]) -> Option<u8> {
    match (straight, exchanged) {
        (0, 0) => DOUBTFUL,
        (1, 0) => ONE,
        (0, 1) => ZERO,
        both => panic!("{both:?}"),
    }
}

/// All decisions of these halves, the same in either pairing.
fn decisions(halves: &[Halves], margin: f32) -> Vec<Option<u8>> {
    let [straight, exchanged] = [0, 1].map(|polarity| deciding_halves(0, halves, margin, polarity));
    assert_eq!(deciding_halves(1, halves, margin, 0), straight, "margin {margin:?}");
    assert_eq!(deciding_halves(1, halves, margin, 1), exchanged, "margin {margin:?}");
    straight.into_iter().zip(exchanged).map(|(one, other)| decision_of([one, other])).collect()
}

/// The halves of any call: near to each other, far apart, or equal.
fn any_halves(random: &mut Random) -> Halves {
    match random.below(4) {
        0 => [even_reading(random), even_reading(random)],
        1 => [any_reading(random), any_reading(random)],
        2 => [any_reading(random); 2],
        _ => {
            let first = even_reading(random);
            [first, (first + any_reading(random)).clamp(-LARGEST, LARGEST)]
        }
    }
}

fn many_halves(name: &str, count: usize) -> Vec<Halves> {
    let mut random = Random::named(name);
    repeat_with(|| any_halves(&mut random)).take(count).collect()
}

/// Margins from one end to the other, the least first.
fn margins() -> Vec<f32> {
    let small = [1, 2, 0x7F_FFFF, 0x80_0000, 0x80_0001].map(f32::from_bits);
    let large = [2f32.powi(-24), 2f32.powi(-19), 2f32.powi(-18), 1.0, 4.5, 22.5, LARGEST];
    let around = |margin| [-1, 0, 1].map(|units| units_from(margin, units));
    let last = [89.0, units_from(LARGEST_MARGIN, -1), LARGEST_MARGIN];
    let above_zero = small.into_iter().chain(large.into_iter().flat_map(around)).chain(last);
    [0.0, -0.0].into_iter().chain(above_zero).collect()
}

/// By hand: the unit is 2^-18 at 45, and 2^-17 at 90.
#[test]
fn the_places_to_look() {
    let below = |units: i32| units_from(LARGEST, -units);
    let half_unit = 2f32.powi(-19);
    for (halves, margin, decision) in [
        ([1.0, -1.0], 0.0, ONE),
        ([-1.0, 1.0], 0.0, ZERO),
        ([2.0, 1.0], 0.0, ONE),
        ([-2.0, -1.0], 0.0, ZERO),
        // Equal halves are doubtful without a margin too.
        ([0.0, 0.0], 0.0, DOUBTFUL),
        ([0.0, -0.0], 0.0, DOUBTFUL),
        ([-0.0, 0.0], -0.0, DOUBTFUL),
        ([-7.0, -7.0], 0.0, DOUBTFUL),
        ([TINY, -0.0], 0.0, ONE),
        ([0.0, TINY], -0.0, ZERO),
        ([TINY, -TINY], 2.0 * TINY, ONE),
        ([TINY, -TINY], 3.0 * TINY, DOUBTFUL),
        // By as much as the margin is enough.
        ([10.0, 5.0], 5.0, ONE),
        ([5.0, 10.0], 5.0, ZERO),
        ([10.0, 5.0], units_from(5.0, 1), DOUBTFUL),
        ([5.0, 10.0], units_from(5.0, 1), DOUBTFUL),
        ([45.0, -45.0], 90.0, ONE),
        ([-45.0, 45.0], 90.0, ZERO),
        // Half a unit less than 90, or than 45, is rounded to it.
        ([45.0, -below(1)], 90.0, ONE),
        ([45.0, -below(2)], 90.0, DOUBTFUL),
        ([45.0, half_unit], 45.0, ONE),
        ([half_unit, 45.0], 45.0, ZERO),
        ([45.0, TINY], 45.0, ONE),
        ([45.0, units_from(half_unit, 1)], 45.0, DOUBTFUL),
        // One and a half less goes down, to what is even.
        ([45.0, -below(3)], units_from(90.0, -2), ONE),
        ([45.0, -below(3)], units_from(90.0, -1), DOUBTFUL),
        ([below(1), half_unit], below(2), ONE),
        ([below(1), half_unit], below(1), DOUBTFUL),
    ] {
        assert_eq!(decisions(&[halves], margin), [decision], "{halves:?}, margin {margin:?}");
    }
}

/// All ordered pairs of special readings with every margin above.
#[test]
fn special_readings_beside_each_other() {
    let special = special(&mut Random::named("special readings"));
    assert!((200..300).contains(&special.len()), "{}", special.len());
    let beside = |&first: &f32| special.iter().map(move |&second| [first, second]);
    let halves: Vec<Halves> = special.iter().flat_map(beside).collect();
    for margin in margins() {
        let doubtful = decisions(&halves, margin).iter().filter(|bit| bit.is_none()).count();
        // A reading is equal to itself, and the two zeros to each other.
        let equal = special.len() + 2;
        assert!(if margin == 0.0 { doubtful == equal } else { doubtful >= equal }, "{margin:?}");
    }
    report("special readings with margins", halves.len() * margins().len());
}

/// What two halves differ by is enough of a margin, and a unit more is too much.
#[test]
fn special_differences_as_margins() {
    let special = special(&mut Random::named("special readings"));
    let mut count = 0;
    for &first in &special {
        for &second in special.iter().filter(|&&second| second != first) {
            let difference = (first - second).abs();
            let decision = Some(u8::from(first > second));
            let more = units_from(difference, 1);
            let around = [(units_from(difference, -1), decision), (difference, decision)];
            let above = (more <= LARGEST_MARGIN).then_some((more, DOUBTFUL));
            for (margin, expected) in around.into_iter().chain(above) {
                for polarity in [0, 1] {
                    let bits = deciding_halves(0, &[[first, second]], margin, polarity);
                    let what = || format!("{first:?}, {second:?}, margin {margin:?}");
                    assert_eq!(bits, [sent(expected, polarity)], "{}", what());
                    count += 1;
                }
            }
        }
    }
    report("special differences as margins", count);
}

/// Without a margin only equal halves are doubtful.
#[test]
fn no_margin() {
    const COUNT: usize = 300_000;
    let halves = many_halves("no margin", COUNT);
    for margin in [0.0, -0.0] {
        for ([first, second], decision) in halves.iter().zip(decisions(&halves, margin)) {
            let expected = (first != second).then_some(u8::from(first > second));
            assert_eq!(decision, expected, "{first:?}, {second:?}");
        }
    }
    report("halves without a margin", COUNT);
}

/// Other halves first is the other bit, and so is the other polarity.
#[test]
fn exchanged_halves_and_exchanged_polarity() {
    const COUNT: usize = 20_000;
    let halves = many_halves("exchanged", COUNT);
    let exchanged: Vec<Halves> = halves.iter().map(|&[first, second]| [second, first]).collect();
    let mut random = Random::named("margins of exchanged halves");
    for margin in repeat_with(|| 2.0 * even_reading(&mut random).abs()).take(10).chain(margins()) {
        let (decided, other) = (decisions(&halves, margin), decisions(&exchanged, margin));
        for (place, (decision, other)) in decided.iter().zip(other).enumerate() {
            assert_eq!(decision.map(|bit| 1 - bit), other, "{:?}, {margin:?}", halves[place]);
        }
        for (pairing, polarity) in [(0, 0), (0, 1), (1, 0), (1, 1)] {
            let there = deciding_halves(pairing, &halves, margin, polarity);
            let back = deciding_halves(pairing, &exchanged, margin, 1 - polarity);
            assert_eq!(there, back, "margin {margin:?}, polarity {polarity}");
        }
    }
    report("exchanged halves", COUNT * (10 + margins().len()));
}

/// A larger margin makes more doubtful and changes no bit; with the largest only what
/// is 90 degrees apart is decided.
#[test]
fn larger_margins() {
    const COUNT: usize = 30_000;
    let mut halves = many_halves("larger margins", COUNT);
    halves.extend([[LARGEST, -LARGEST], [-LARGEST, LARGEST]]);
    let mut last = decisions(&halves, 0.0);
    for margin in margins() {
        let decided = decisions(&halves, margin);
        for (place, (before, after)) in last.iter().zip(&decided).enumerate() {
            assert!(after == before || after.is_none(), "{:?}, {margin:?}", halves[place]);
        }
        last = decided;
    }
    for ([first, second], decision) in halves.iter().zip(last) {
        let decided = (first - second).abs() == LARGEST_MARGIN;
        assert_eq!(decision.is_some(), decided, "{first:?}, {second:?}");
    }
    report("halves with larger and larger margins", COUNT * margins().len());
}
