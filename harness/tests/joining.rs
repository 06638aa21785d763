//! Request No. 9 against the library: the remainder of a string, and of two strings
//! joined, beside long division on paper. Also what the example in C must print.

use harness::compare::{dividing, joining, reading};
use harness::face::{self, Remainder};
use harness::independent::joining::{left, LARGEST, STRING};
use harness::independent::{bits_of, digits_of, number_of, remainder, BLOCK, PREFIX};
use harness::program::text;
use harness::random::{report, Random};
use harness::refusals::STRING_TOO_LONG;

/// Every length up to 400, and every power of two with its neighbours.
fn lengths() -> Vec<usize> {
    let powers = (0..=16).map(|place| 1 << place);
    let around = powers.flat_map(|power: usize| [power - 1, power, power + 1]);
    (0..=400).chain(around.filter(|length| (401..=STRING).contains(length))).collect()
}

/// Strings of a length: random bits, all ones, the first alone, the last alone.
fn strings(random: &mut Random, len: usize) -> [Vec<u8>; 4] {
    let alone = |one: usize| (0..len).map(|place| u8::from(place == one)).collect();
    [random.bits(len), vec![1; len], alone(0), alone(len.saturating_sub(1))]
}

/// Two strings of the same length, added bit by bit.
fn sum(one: &[u8], other: &[u8]) -> Vec<u8> {
    one.iter().zip(other).map(|(bit, added)| bit ^ added).collect()
}

/// What a part of a string leaves, by the library too where it takes it.
fn part(bits: &[u8]) -> u16 {
    if bits.len() > STRING {
        return left(bits);
    }
    dividing(bits).expect("a remainder")
}

/// The parts joined must leave what the whole leaves on paper; gives this.
fn must_join(first: &[u8], second: &[u8]) -> u16 {
    let whole = left(&[first, second].concat());
    let joined = joining(part(first), part(second), second.len() as u32);
    assert_eq!(joined, Ok(whole), "{} bits and {} behind them", first.len(), second.len());
    whole
}

#[test]
fn the_division_is_the_published_one() {
    // The check value that catalogues give for CRC-13/BBC, for which thirteen zeros
    // stand behind the text.
    let text: Vec<u8> = b"123456789".iter().flat_map(|&byte| digits_of::<8>(byte.into())).collect();
    assert_eq!(dividing(&[&text[..], &[0; 13]].concat()), Ok(0x04FA));
    assert_eq!(must_join(&text, &[0; 13]), 0x04FA);
    // The check words of words 1 to 3, as document 01 gives them.
    for (word, check_word) in [(1, 0x1CF5), (2, 0x051F), (3, 0x19EA)] {
        assert_eq!(joining(word, 0, 13), Ok(check_word));
        assert_eq!(joining(word, check_word, 13), Ok(0));
    }
}

#[test]
fn strings_that_fit_a_number_leave_what_it_leaves() {
    const EACH: usize = 1_000;
    let mut random = Random::named("strings that fit a number");
    for len in 0..=64 {
        for bits in std::iter::repeat_with(|| random.bits(len)).take(EACH) {
            assert_eq!(dividing(&bits), Ok(remainder(number_of(&bits)) as u16), "{bits:?}");
        }
    }
    report("strings that fit a number", 65 * EACH);
}

#[test]
fn strings_of_every_length() {
    let mut random = Random::named("strings of every length");
    for len in lengths() {
        for bits in strings(&mut random, len) {
            assert!(dividing(&bits).is_ok());
        }
        assert_eq!(dividing(&vec![0; len]), Ok(0), "{len} zeros");
    }
    report("lengths of strings", lengths().len());
}

#[test]
fn random_strings_cut_anywhere() {
    const COUNT: usize = 2_000;
    let mut random = Random::named("strings cut anywhere");
    for round in 0..COUNT {
        // Every tenth is as long as it may be.
        let len = if round % 10 == 0 { STRING } else { random.below(STRING + 1) };
        let bits = random.bits(len);
        let (first, second) = bits.split_at(random.below(len + 1));
        assert_eq!(dividing(&bits), Ok(must_join(first, second)));
    }
    report("random strings, cut anywhere", COUNT);
}

#[test]
fn every_short_string_cut_at_every_place() {
    const MOST: usize = 14;
    let mut count = 0;
    for len in 0..=MOST {
        for number in 0..1 << len {
            let bits = &digits_of::<MOST>(number)[MOST - len..];
            for cut in 0..=len {
                must_join(&bits[..cut], &bits[cut..]);
                count += 1;
            }
        }
    }
    report("short strings, cut at every place", count);
}

#[test]
fn seconds_of_every_length() {
    let mut random = Random::named("seconds of every length");
    let mut count = 0;
    for len in lengths() {
        let any = random.below(STRING - len + 1);
        // With the last two the whole is as long as a string may be, and longer.
        for before in [0, 1, 13, any, STRING - len, STRING + 1 - len] {
            let first = random.bits(before);
            for second in strings(&mut random, len) {
                must_join(&first, &second);
                count += 1;
            }
        }
    }
    report("seconds of every length", count);
}

#[test]
fn firsts_of_any_length() {
    const COUNT: usize = 200;
    let mut random = Random::named("long firsts");
    for round in 0..COUNT {
        let before = [STRING, STRING + 1, STRING + random.below(STRING), 1_000_000][round % 4];
        let behind = [STRING, random.below(STRING)][random.below(2)];
        must_join(&random.bits(before), &random.bits(behind));
    }
    report("wholes that are longer than a string", COUNT);
}

#[test]
fn blocks_leave_what_reading_them_tells() {
    const COUNT: usize = 10_000;
    let mut random = Random::named("blocks as strings");
    for round in 0..COUNT {
        // Every other one is good, and the prefix stays.
        let places = round % 2 * (1 + random.below(BLOCK));
        let received = random.block() ^ random.change(places) & (PREFIX - 1);
        let told = reading(&bits_of(received)).remainder;
        let inverted = bits_of(received ^ PREFIX);
        let (first, second) = inverted.split_at(random.below(BLOCK + 1));
        assert_eq!(must_join(first, second), told, "{received:#o}");
        assert_eq!(dividing(&inverted), Ok(told), "{received:#o}");
    }
    report("blocks as strings", COUNT);
}

#[test]
fn any_remainders_and_any_length() {
    const COUNT: usize = 10_000;
    let mut random = Random::named("any remainders");
    for _ in 0..COUNT {
        let length = random.below(STRING + 1);
        assert!(joining(random.remainder(), random.remainder(), length as u32).is_ok());
    }
    let mut count = COUNT;
    for length in lengths() {
        let any = [random.remainder(), random.remainder()];
        for [first, second] in [[0, LARGEST], [1, 0], [4_096, 5], [LARGEST; 2], any] {
            assert!(joining(first, second, length as u32).is_ok());
            count += 1;
        }
    }
    report("remainders joined", count);
}

/// Document 02 does not ask whether there is such a string, so none is refused.
#[test]
fn remainders_that_no_string_of_the_length_leaves() {
    assert_eq!(joining(0, 5, 0), Ok(5));
    assert_eq!(joining(3, 5, 0), Ok(6));
    assert_eq!(joining(1, 5, 1), Ok(7));
    let mut count = 0;
    for length in 0..13 {
        for second in 1 << length..=LARGEST {
            for first in [0, 1, LARGEST] {
                assert!(joining(first, second, length).is_ok());
                count += 1;
            }
        }
    }
    report("remainders of no string", count);
}

/// Every length there is: a zero more is divided on paper from what was left before.
#[test]
fn zeros_one_by_one() {
    let any = Random::named("zeros one by one").remainder();
    for first in [1, LARGEST, any] {
        let mut expected = first;
        for length in 0..=STRING as u32 {
            assert_eq!(face::join(first, 0, length), Ok(expected).into(), "{length} zeros");
            expected = left(&digits_of::<14>(u64::from(expected) << 1));
        }
    }
    report("lengths of seconds", 3 * (STRING + 1));
}

/// Three parts joined from the front and from behind must leave what the whole
/// leaves; from behind, the second and the third may not be too long together.
fn must_join_three(parts: [&[u8]; 3]) {
    let [first, second, third] = parts.map(part);
    let [_, middle, end] = parts.map(|bits| bits.len() as u32);
    let whole = Ok(left(&parts.concat()));
    let from_the_front = joining(first, second, middle).and_then(|both| joining(both, third, end));
    assert_eq!(from_the_front, whole, "{middle} bits and {end}");
    let from_behind =
        joining(second, third, end).and_then(|both| joining(first, both, middle + end));
    let expected = if middle + end > 65_536 { Err(STRING_TOO_LONG) } else { whole };
    assert_eq!(from_behind, expected, "{middle} bits and {end}");
}

#[test]
fn three_parts_in_both_orders() {
    let mut random = Random::named("three parts");
    let mut count = 0;
    for middle in lengths() {
        // Together they are exactly as long as may be, one bit longer, and any length.
        let ends = [STRING - middle, (STRING + 1 - middle).min(STRING), random.below(STRING + 1)];
        for end in ends {
            let before = random.below(1_000);
            let [first, second, third] = [before, middle, end].map(|len| random.bits(len));
            must_join_three([&first, &second, &third]);
            must_join_three([&first, &third, &second]);
            count += 2;
        }
    }
    report("three parts in both orders", count);
}

#[test]
fn any_three_remainders_in_both_orders() {
    const COUNT: usize = 10_000;
    let mut random = Random::named("three remainders");
    for _ in 0..COUNT {
        let [first, second, third] = [(); 3].map(|()| random.remainder());
        let both = random.below(STRING + 1);
        let end = random.below(both + 1) as u32;
        let [both, middle] = [both as u32, both as u32 - end];
        let joined = |first, second, length| {
            let Remainder { refusal, remainder } = face::join(first, second, length);
            assert_eq!(refusal, 0, "{first:#x} and {second:#x} of {length} bits");
            remainder
        };
        assert_eq!(
            joined(joined(first, second, middle), third, end),
            joined(first, joined(second, third, end), both),
            "{first:#x}, {second:#x} of {middle} bits, {third:#x} of {end}"
        );
    }
    report("three remainders in both orders", COUNT);
}

#[test]
fn the_empty_string_changes_nothing() {
    assert_eq!(dividing(&[]), Ok(0));
    assert_eq!(joining(0, 0, 0), Ok(0));
    for any in 0..=LARGEST {
        assert_eq!(joining(any, 0, 0), Ok(any), "nothing behind");
        for length in [0, 1, 12, 13, 14, 400] {
            assert_eq!(joining(0, any, length), Ok(any), "nothing before");
        }
    }
    let mut random = Random::named("empty strings");
    for len in lengths() {
        let bits = random.bits(len);
        assert_eq!(must_join(&bits, &[]), left(&bits));
        assert_eq!(must_join(&[], &bits), left(&bits));
    }
}

#[test]
fn a_sum_of_strings_leaves_the_sum() {
    let mut random = Random::named("sums");
    for len in lengths() {
        let before = random.below(1_000);
        let firsts = [random.bits(before), random.bits(before)];
        let seconds = [random.bits(len), random.bits(len)];
        let [one, other] = [0, 1].map(|which| must_join(&firsts[which], &seconds[which]));
        let [first, second] = [&firsts, &seconds].map(|two| sum(&two[0], &two[1]));
        assert_eq!(must_join(&first, &second), one ^ other, "{before} bits and {len}");
        let [one, other] = [&seconds[0], &seconds[1]].map(|bits| dividing(bits).expect("bits"));
        assert_eq!(dividing(&second), Ok(one ^ other), "{len} bits");
    }
    report("sums of strings", lengths().len());
}

/// What the example in C says, from its two files.
#[test]
fn the_halves_of_the_example() {
    let line = |title: &str, bits: &[u8]| {
        format!("{title}: {} bits, remainder 0x{:04X}\n", bits.len(), left(bits))
    };
    let mut said = String::new();
    let mut whole = Vec::new();
    for name in text("examples/join.args").lines() {
        let half: Vec<u8> = text(name).lines().flat_map(str::bytes).map(|one| one - b'0').collect();
        said += &line(name, &half);
        whole.extend(half);
    }
    said += &line("both together", &whole);
    assert_eq!(said, text("examples/join.expected"));
    // They are good blocks, the first bit of each inverted.
    for block in whole.chunks(BLOCK) {
        assert_eq!(reading(&[&[1 - block[0]], &block[1..]].concat()).refusal, 0);
    }
}
