//! The library's blocks as numbers against the independent program and against
//! its own blocks of fifty bytes.

use harness::changes;
use harness::compare::{choosing_packed, packing, reading_packed, unpacking, writing_packed};
use harness::face::{Block, Packed};
use harness::independent::packed::LARGEST;
use harness::independent::{bits_of, block, remainder, BLOCK, PREFIX};
use harness::random::{report, Random};
use harness::refusals::{
    NOT_A_BIT, NUMBER_TOO_WIDE, OUT_OF_RANGE, WRONG_CHECK_WORD, WRONG_LENGTH, WRONG_PREFIX,
};

/// The places above the first sent bit's.
const ABOVE: std::ops::Range<u32> = 50..64;

/// Code 0 and word 1, as document 01 gives them.
const ONE: u64 = PREFIX | 1 << 13 | 0x1CF5;

/// Numbers that are good or bad in different ways, as places to start from.
const STARTS: [u64; 6] = [0, PREFIX, PREFIX | 1, ONE, LARGEST, remainder(PREFIX)];

#[test]
fn the_places_to_look() {
    for (word, check_word) in [(0, 0), (1, 0x1CF5), (2, 0x051F), (3, 0x19EA)] {
        let sent = 1 << 49 | u64::from(word) << 13 | check_word;
        assert_eq!(writing_packed(0, word), Packed { refusal: 0, block: sent });
        assert_eq!(reading_packed(sent), Block::taken(0, word));
    }
    assert_eq!(reading_packed(0), Block::refused(WRONG_PREFIX));
    assert_eq!(reading_packed(PREFIX | 1), Block::leaving(1));
    // With its first bit inverted this divides evenly, and yet it is no block.
    assert_eq!(reading_packed(remainder(PREFIX)), Block::refused(WRONG_PREFIX));
}

#[test]
fn tests_come_in_their_order() {
    assert_eq!(
        reading_packed(PREFIX * 2 + 1),
        Block::refused(NUMBER_TOO_WIDE),
        "before the prefix"
    );
    assert_eq!(reading_packed(1), Block::refused(WRONG_PREFIX), "before the check word");
    assert_eq!(packing(&[7; BLOCK - 1]).refusal, WRONG_LENGTH, "before the bits");
    assert_eq!(unpacking(u64::MAX, &[7; BLOCK - 1]), WRONG_LENGTH, "before the number");
}

#[test]
fn every_bit_above_place_49() {
    let good = Random::named("bits above").block();
    for start in [0, good, ONE, PREFIX, LARGEST] {
        for place in ABOVE {
            let number = start | 1 << place;
            assert_eq!(reading_packed(number), Block::refused(NUMBER_TOO_WIDE), "{place}");
            assert_eq!(unpacking(number, &[9; BLOCK]), NUMBER_TOO_WIDE, "place {place}");
            assert_eq!(choosing_packed(number, good, 0xA5), (2, 0, 0), "place {place}");
            assert_eq!(choosing_packed(good, number, 0xA5), (1, 0, 0), "place {place}");
        }
        // And every set of them.
        for above in 1..1 << ABOVE.len() {
            assert_eq!(reading_packed(start | above << 50), Block::refused(NUMBER_TOO_WIDE));
        }
    }
    assert_eq!(reading_packed(u64::MAX), Block::refused(NUMBER_TOO_WIDE));
    assert_eq!(unpacking(u64::MAX, &[0; BLOCK]), NUMBER_TOO_WIDE);
}

#[test]
fn every_code_is_written_or_refused() {
    let mut random = Random::named("packed codes");
    for code in 0..=255 {
        for word in [0, 1, u32::MAX, random.number() as u32] {
            let answer = writing_packed(code, word);
            if code > 15 {
                assert_eq!(answer, Packed { refusal: OUT_OF_RANGE, block: 0 });
            } else {
                assert_eq!(reading_packed(answer.block), Block::taken(code, word));
            }
        }
    }
}

#[test]
fn every_small_change_and_every_short_burst() {
    let starts = [&STARTS[..], &[Random::named("packed changes").block()]].concat();
    let mut count = 0;
    for change in changes::of_one_to_three_places().chain(changes::bursts_within(13)) {
        for start in &starts {
            reading_packed(start ^ change);
            count += 1;
        }
    }
    report("small changes and short bursts of numbers", count);
}

#[test]
fn every_bit_has_its_place() {
    for place in 0..BLOCK {
        let mut bits = [0; BLOCK];
        bits[place] = 1;
        let number = 1 << (49 - place);
        assert_eq!(packing(&bits), Packed { refusal: 0, block: number });
        assert_eq!(unpacking(number, &[9; BLOCK]), 0);
        // The same with all other bits set.
        assert_eq!(packing(&bits.map(|bit| 1 - bit)).block, LARGEST ^ number);
        assert_eq!(unpacking(LARGEST ^ number, &[9; BLOCK]), 0);
    }
}

#[test]
fn every_length() {
    let mut random = Random::named("packed lengths");
    for len in 0..=101 {
        let bits = random.bits(len);
        let bytes: Vec<u8> = (0..len).map(|_| random.number() as u8).collect();
        for content in [&bits, &bytes, &vec![1; len], &vec![0xFF; len]] {
            assert_eq!(packing(content).refusal == WRONG_LENGTH, len != BLOCK);
            for number in [0, random.block(), LARGEST, PREFIX * 2, random.number(), u64::MAX] {
                assert_eq!(unpacking(number, content) == WRONG_LENGTH, len != BLOCK);
            }
        }
        for place in 0..len {
            let mut bits = bits.clone();
            bits[place] = random.not_a_bit();
            packing(&bits);
        }
    }
}

#[test]
fn every_byte_value_at_every_place() {
    for start in STARTS {
        for place in 0..BLOCK {
            for value in 0..=255 {
                let mut bits = bits_of(start);
                bits[place] = value;
                assert_eq!(packing(&bits).refusal == NOT_A_BIT, value > 1);
                assert_eq!(unpacking(start, &bits), 0);
            }
        }
    }
}

/// One number of each kind that the chooser can be given, its refusal, and the
/// remainder that it tells.
fn kinds() -> [(u8, u16, u64); 9] {
    [
        (0, 0, ONE),
        (0, 0, block(15, u32::MAX)),
        (WRONG_PREFIX, 0, 0),
        (WRONG_PREFIX, 0, ONE ^ PREFIX),
        (WRONG_CHECK_WORD, 1, ONE ^ 1),
        // The report prints the check word of 36 ones.
        (WRONG_CHECK_WORD, 0o17777 ^ 0o02722, LARGEST),
        (NUMBER_TOO_WIDE, 0, ONE | 1 << 50),
        (NUMBER_TOO_WIDE, 0, 1 << 63),
        (NUMBER_TOO_WIDE, 0, u64::MAX),
    ]
}

#[test]
fn the_chooser_over_every_pair_of_kinds() {
    for (first_refusal, remainder, first) in kinds() {
        for (second_refusal, _, second) in kinds() {
            let expected = match (first_refusal, second_refusal) {
                (0, _) => (1, 0, 0),
                (_, 0) => (2, 0, 0),
                (number, _) => (0, number, remainder),
            };
            for rubbish in 0..=255 {
                assert_eq!(choosing_packed(first, second, rubbish), expected);
            }
        }
    }
}

#[test]
fn the_chooser_tells_the_remainder_of_the_first_alone() {
    // A changed bit of the check word leaves itself.
    let [one, four, wide] = [ONE ^ 1, ONE ^ 4, (ONE ^ 1) | 1 << 50];
    assert_eq!(choosing_packed(ONE, one, 9), (1, 0, 0));
    assert_eq!(choosing_packed(one, ONE, 9), (2, 0, 0));
    assert_eq!(choosing_packed(one, four, 9), (0, WRONG_CHECK_WORD, 1));
    assert_eq!(choosing_packed(one ^ PREFIX, one, 9), (0, WRONG_PREFIX, 0));
    assert_eq!(choosing_packed(wide, one, 9), (0, NUMBER_TOO_WIDE, 0));
}

/// Half of these are the good block or one change away from it.
fn perhaps_damaged(random: &mut Random, good: u64) -> u64 {
    match random.below(8) {
        0 | 1 => good,
        2 | 3 => good ^ 1 << random.below(BLOCK),
        4 => good | 1 << (BLOCK + random.below(64 - BLOCK)),
        5 => random.number(),
        6 => random.number() >> 14,
        _ => random.number() >> 14 | PREFIX,
    }
}

#[test]
fn ten_million_random_numbers() {
    const COUNT: usize = 10_000_000;
    let mut random = Random::named("numbers");
    let mut before = 0;
    let mut refusals = [0; 15];
    for round in 0..COUNT {
        let (code, word) = random.code_and_word();
        let number = perhaps_damaged(&mut random, block(code, word));
        refusals[usize::from(reading_packed(number).refusal)] += 1;
        if round % 4 == 0 {
            writing_packed(code, word);
            choosing_packed(number, before, code);
        }
        before = number;
    }
    // None of the kinds may have been left out.
    for refusal in [0, WRONG_PREFIX, WRONG_CHECK_WORD, NUMBER_TOO_WIDE] {
        assert!(refusals[usize::from(refusal)] > COUNT / 100, "{refusals:?}");
    }
    report("random numbers read, a quarter of them written and chosen", COUNT);
}

#[test]
fn a_million_numbers_packed_and_unpacked() {
    const COUNT: usize = 1_000_000;
    let mut random = Random::named("packing");
    let mut before = bits_of(0);
    for _ in 0..COUNT {
        let good = random.block();
        let number = perhaps_damaged(&mut random, good);
        unpacking(number, &before);
        before = match random.below(8) {
            0 => random.not_all_bits(good),
            _ => bits_of(number & LARGEST),
        };
        packing(&before);
    }
    report("random numbers packed and unpacked", COUNT);
}
