//! The library's block against the independent program: complete answers and
//! every lent byte.

use harness::compare::{choosing, reading, writing};
use harness::face::Block;
use harness::independent::{bits_of, block, check_word, remainder, BLOCK, GENERATOR, PREFIX};
use harness::random::{report, Random};
use harness::refusals::{NOT_A_BIT, OUT_OF_RANGE, WRONG_CHECK_WORD, WRONG_LENGTH, WRONG_PREFIX};
use harness::{changes, slips};

/// Fig. 9 of BBC RD 1984/19, the last five octal digits of each row as printed.
/// The first row is the message with only its most significant bit set.
const FIGURE_9: [u64; 36] = [
    0o13473, 0o12747, 0o12211, 0o12076, 0o05037, 0o15565, 0o11700, 0o04740, 0o02360, 0o01170,
    0o00474, 0o00236, 0o00117, 0o17135, 0o10524, 0o04252, 0o02125, 0o16120, 0o07050, 0o03424,
    0o01612, 0o00705, 0o17230, 0o07514, 0o03646, 0o01723, 0o17623, 0o10663, 0o13243, 0o12453,
    0o12357, 0o12015, 0o12174, 0o05076, 0o42437, 0o36365,
];

/// The report's code vectors with prefix, for message 1 and for 36 ones.
const REPORT_ONE: u64 = 0o20_000_000_000_036_365;
const REPORT_ALL_ONES: u64 = 0o37_777_777_777_762_722;

/// Fifty bits that are good or bad in different ways, as places to start from.
const STARTS: [u64; 6] = [0, PREFIX, PREFIX | 1, REPORT_ONE, REPORT_ALL_ONES, PREFIX * 2 - 1];

/// The library must write this block for the message, and read it back.
fn must_be_the_block(message: u64, sent: u64) {
    let (code, word) = ((message >> 32) as u8, message as u32);
    assert_eq!(block(code, word), sent, "independent block of {message:#o}");
    assert_eq!(writing(code, word, &[0; BLOCK]), 0);
    assert_eq!(reading(&bits_of(sent)), Block::taken(code, word));
}

/// The library must refuse these fifty bits, and tell no remainder.
fn must_be_refused(sent: u64, refusal: u8) {
    assert_eq!(reading(&bits_of(sent)), Block::refused(refusal), "reading {sent:#o}");
}

/// The library must refuse these fifty bits for their check word, and tell this.
fn must_leave(sent: u64, remainder: u64) {
    assert_eq!(reading(&bits_of(sent)), Block::leaving(remainder as u16), "reading {sent:#o}");
}

#[test]
fn the_division_is_the_published_one() {
    let factor: u64 = 1 << 11 | 1 << 10 | 1 << 5 | 1 << 4 | 1;
    assert_eq!(GENERATOR, factor << 2 ^ factor);
    // The check value that catalogues give for CRC-13/BBC. Nine bytes and the
    // thirteen places below them do not fit one number, so each joins what the
    // bytes before it leave.
    let bytes = b"123456789".iter();
    let left = bytes.fold(0, |left, &byte| remainder(left << 8 | u64::from(byte)));
    assert_eq!(check_word(left), 0x04FA);
}

#[test]
fn the_blocks_printed_in_the_report() {
    for (row, digits) in FIGURE_9.iter().enumerate() {
        // The last two rows have their message bit among these digits too.
        let check_word = digits & 0o17777;
        let message = 1 << (35 - row);
        must_be_the_block(message, PREFIX | message << 13 | check_word);
    }
    must_be_the_block(1, REPORT_ONE);
    must_be_the_block(0o777_777_777_777, REPORT_ALL_ONES);
}

#[test]
fn the_places_to_look() {
    must_be_the_block(0, PREFIX);
    for (word, check_word) in [(1, 0x1CF5), (2, 0x051F), (3, 0x19EA)] {
        must_be_the_block(word, PREFIX | word << 13 | check_word);
    }
    must_be_refused(0, WRONG_PREFIX);
    must_leave(PREFIX | 1, 1);
    for len in [49, 51] {
        let mut bits = vec![0; len];
        bits[0] = 1;
        assert_eq!(reading(&bits), Block::refused(WRONG_LENGTH));
    }
}

#[test]
fn the_remainders_printed_in_the_report() {
    // A changed message bit leaves what the report prints as the check word of
    // that bit alone, and a changed bit of the check word leaves itself.
    for good in [PREFIX, REPORT_ONE, REPORT_ALL_ONES] {
        for (row, digits) in FIGURE_9.iter().enumerate() {
            must_leave(good ^ 1 << (48 - row), digits & 0o17777);
        }
        for place in 0..13 {
            must_leave(good ^ 1 << place, 1 << place);
        }
        // All of them, and two rows together.
        must_leave(good ^ 0o17777, 0o17777);
        must_leave(good ^ 0b11 << 47, FIGURE_9[0] ^ FIGURE_9[1]);
    }
}

#[test]
fn the_prefix_is_tested_and_not_divided() {
    // With its first bit inverted this divides evenly, and yet it is no block.
    let divides = remainder(PREFIX);
    assert_eq!(remainder(divides ^ PREFIX), 0);
    must_be_refused(divides, WRONG_PREFIX);
    // Here the check word is taken over the prefix too.
    must_leave(PREFIX | divides, divides);
}

#[test]
fn tests_come_in_their_order() {
    let mut bits = bits_of(0);
    bits[49] = 7;
    assert_eq!(reading(&bits), Block::refused(NOT_A_BIT), "before the prefix");
    assert_eq!(reading(&bits[1..]), Block::refused(WRONG_LENGTH), "before the bits");
    must_be_refused(1, WRONG_PREFIX);
    assert_eq!(writing(16, 0, &bits[1..]), WRONG_LENGTH, "before the code");
    assert_eq!(writing(16, 0, &bits), OUT_OF_RANGE);
}

#[test]
fn every_byte_in_the_message() {
    // Every byte at every place in the message that is a multiple of four, after
    // every code.
    for shift in (0..32).step_by(4) {
        for byte in 0..=255u32 {
            for code in 0..16 {
                let word = byte << shift;
                assert_eq!(writing(code, word, &[9; BLOCK]), 0);
                assert_eq!(reading(&bits_of(block(code, word))), Block::taken(code, word));
            }
        }
    }
}

#[test]
fn every_code_is_written_or_refused() {
    let mut random = Random::named("codes");
    for code in 0..=255 {
        for len in [0, 1, 49, 50, 51, 100] {
            let before: Vec<u8> = (0..len).map(|_| random.number() as u8).collect();
            for before in [vec![0; len], vec![1; len], vec![0xFF; len], before] {
                writing(code, random.number() as u32, &before);
            }
        }
    }
}

#[test]
fn every_length() {
    let mut random = Random::named("lengths");
    let good = bits_of(REPORT_ALL_ONES).repeat(3);
    for len in 0..=130 {
        let mut bits: Vec<u8> = (0..len).map(|_| random.below(2) as u8).collect();
        let bytes: Vec<u8> = (0..len).map(|_| random.number() as u8).collect();
        let (code, word) = random.code_and_word();
        for content in [&good[..len], &good[150 - len..], &bits, &bytes] {
            reading(content);
            writing(code, word, content);
            choosing(content, &good[..BLOCK], 0xA5);
            choosing(&good[..BLOCK], content, 0xA5);
            choosing(content, content, 0xA5);
        }
        for place in 0..len {
            let bit = std::mem::replace(&mut bits[place], random.not_a_bit());
            reading(&bits);
            bits[place] = bit;
        }
    }
}

#[test]
fn every_byte_value_at_every_place() {
    for start in STARTS {
        for place in 0..BLOCK {
            for value in 0..=255 {
                let mut bits = bits_of(start);
                bits[place] = value;
                let refusal = reading(&bits).refusal;
                assert_eq!(refusal == NOT_A_BIT, value > 1);
            }
        }
    }
}

#[test]
fn every_small_change_and_every_short_burst() {
    let starts = [&STARTS[..], &[Random::named("changes").block()]].concat();
    let mut count = 0;
    for change in changes::of_one_to_three_places().chain(changes::bursts_within(13)) {
        for start in &starts {
            reading(&bits_of(start ^ change));
            count += 1;
        }
    }
    report("small changes and short bursts", count);
}

/// One slice of each kind that the chooser can be lent, its refusal, and the
/// remainder that it tells.
fn kinds() -> Vec<(u8, u16, Vec<u8>)> {
    let good = bits_of(REPORT_ALL_ONES);
    let with = |place: usize, value: u8| {
        let mut bits = good;
        bits[place] = value;
        bits.to_vec()
    };
    vec![
        (0, 0, good.to_vec()),
        (0, 0, bits_of(REPORT_ONE).to_vec()),
        (NOT_A_BIT, 0, with(0, 2)),
        (NOT_A_BIT, 0, with(49, 255)),
        (WRONG_PREFIX, 0, with(0, 0)),
        (WRONG_CHECK_WORD, FIGURE_9[0] as u16, with(1, 0)),
        (WRONG_CHECK_WORD, 1, with(49, 1)),
        (WRONG_LENGTH, 0, vec![]),
        (WRONG_LENGTH, 0, good[..49].to_vec()),
        (WRONG_LENGTH, 0, [&good[..], &[0]].concat()),
        (WRONG_LENGTH, 0, good.repeat(2)),
    ]
}

#[test]
fn the_chooser_over_every_pair_of_kinds() {
    for (first_refusal, remainder, first) in kinds() {
        for (second_refusal, _, second) in kinds() {
            let expected = match (first_refusal, second_refusal) {
                (0, _) => (1, 0, 0),
                (_, 0) => (2, 0, 0),
                (number, _) => (0, number, remainder),
            };
            for rubbish in 0..=255 {
                assert_eq!(choosing(&first, &second, rubbish), expected);
            }
        }
    }
}

#[test]
fn the_chooser_tells_the_remainder_of_the_first_alone() {
    // A changed bit of the check word leaves itself.
    let [good, one, four, no_prefix] =
        [0, 1, 4, PREFIX | 1].map(|change| bits_of(REPORT_ONE ^ change));
    assert_eq!(choosing(&good, &one, 9), (1, 0, 0));
    assert_eq!(choosing(&one, &good, 9), (2, 0, 0));
    assert_eq!(choosing(&one, &four, 9), (0, WRONG_CHECK_WORD, 1));
    assert_eq!(choosing(&no_prefix, &one, 9), (0, WRONG_PREFIX, 0));
}

/// A good block, damaged in a way that the random numbers choose, or not at all.
fn perhaps_damaged(random: &mut Random, good: u64) -> [u8; BLOCK] {
    let count = 1 + random.below(BLOCK);
    match random.below(8) {
        0 | 1 => bits_of(good),
        2 => bits_of(good ^ 1 << random.below(13)),
        3 => bits_of(good & (PREFIX - 1)),
        4 => random.not_all_bits(good),
        5 => bits_of(random.number() >> 14),
        _ => bits_of(good ^ random.change(count)),
    }
}

#[test]
fn ten_million_random_blocks() {
    const COUNT: usize = 10_000_000;
    let mut random = Random::named("blocks");
    let mut before = [0; BLOCK];
    let mut refusals = [0; 5];
    for _ in 0..COUNT {
        let (code, word) = random.code_and_word();
        writing(code, word, &before);
        let bits = perhaps_damaged(&mut random, block(code, word));
        refusals[usize::from(reading(&bits).refusal)] += 1;
        choosing(&bits, &before, code);
        before = bits;
    }
    // None of the kinds may have been left out.
    assert_eq!(refusals.map(|count| count > COUNT / 100), [true, true, false, true, true]);
    report("random blocks written, read and chosen", COUNT);
}

#[test]
fn every_window_of_two_blocks() {
    const PAIRS: usize = 10_000;
    let mut random = Random::named("windows");
    for _ in 0..PAIRS {
        let pair = [random.code_and_word(), random.code_and_word()];
        for slip in 0..=BLOCK {
            reading(&bits_of(slips::window(pair, slip)));
        }
    }
    report("windows of two blocks", PAIRS * (BLOCK + 1));
}
