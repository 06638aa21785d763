//! The library's Polish frame against the independent program: complete answers
//! and every lent byte.

use std::iter::once;

use harness::compare::{reading_polish, writing_polish};
use harness::face::Polish;
use harness::independent::polish::{crc, Sent, FRAME, GENERATOR, SYMBOLS};
use harness::random::{report, Random};
use harness::refusals::{NO_CODEWORD, WRONG_CRC, WRONG_FIXED_BITS, WRONG_SIZE};
use harness::{changes, fields};

const ZERO: Polish = Polish { periods: 0, tz0: 0, tz1: 0, ls: 0, lss: 0, tzc: 0, sk0: 0, sk1: 0 };

const LAST: u32 = (1 << 30) - 1;

/// The periods whose thirty bits are those of the scrambling string, 01010
/// 01000111 01010101 01001101 0, so that they are sent as zeros.
const SENT_AS_ZEROS: u32 = 0b01_0100_1000_1110_1010_1010_1001_1010;

/// Times and their frames, worked out from the rules without any program of
/// this project.
///
/// First: bytes 4 to 8 are to be A0 00 00 00 02 when scrambled, so that the last
/// of the nine symbols is 1, the others and SK1 are 0, and the codeword is the
/// generator itself, 1 7 9 3 C A C. Plain, the last byte is 02 + 2B = 29, or
/// 0 0 1 0 1 0 0 1: S29, TZ0 and so on to SK1. x^8 to x^15 leave 07 0E 1C 38 70
/// E0 C7 89 by the CRC's polynomial, so the five bytes leave in turn 69 18 48 FF FD.
///
/// Second: the last two symbols are to be 1 7, and the codeword is x times the
/// generator. With SK1 sent as 1 the last byte is 0010111 1 = 2F, plain 04, so
/// that TZC alone is 1; the CRC goes 69 18 48 FF 3E.
///
/// Third: 101 and then zeros only is A0 00 00 00 00, scrambled AA 47 55 4D 2B;
/// the symbols are 5 2 3 A A A 6 9 5, and SK1 is 1. Long division takes away the
/// generator 5, A, B, 4, D, 6, 8, 5 and 3 times, and leaves 9 7 D 9 4 7. The CRC
/// goes 5F 48 53 5A 50.
const WORKED_OUT: [(Polish, [u8; FRAME]); 3] = [
    (
        Polish { periods: SENT_AS_ZEROS, tz1: 1, lss: 1, sk1: 1, ..ZERO },
        [0x55, 0x55, 0x60, 0xA0, 0x00, 0x00, 0x00, 0x02, 0x79, 0x3C, 0xAC, 0xFD],
    ),
    (
        Polish { periods: SENT_AS_ZEROS, tzc: 1, ..ZERO },
        [0x55, 0x55, 0x60, 0xA0, 0x00, 0x00, 0x00, 0x2F, 0x93, 0xCA, 0xC0, 0x3E],
    ),
    (ZERO, [0x55, 0x55, 0x60, 0xAA, 0x47, 0x55, 0x4D, 0x2B, 0x97, 0xD9, 0x47, 0x50]),
];

/// The 27 times at the edges, then random ones.
fn times(name: &str, count: usize) -> Vec<Polish> {
    let mut random = Random::named(name);
    let alone = |place| std::array::from_fn(|other| u8::from(place == other));
    let flags = once([0; 7]).chain((0..7).map(alone)).chain(once([1; 7]));
    let mut times: Vec<Polish> = flags
        .flat_map(|flags| [0, 1, LAST].map(|periods| Polish::of_bytes(periods, flags)))
        .collect();
    times.resize_with(count, || random.polish());
    times
}

/// The library must read this from what is sent with these symbols changed.
fn must_read(sent: Sent, pattern: u64, expected: Result<Polish, u8>) {
    let changed = Sent { word: sent.word ^ pattern, ..sent };
    assert_eq!(reading_polish(&changed.frame()), expected, "symbols changed by {pattern:#x}");
}

#[test]
fn the_divisions_are_the_published_ones() {
    // As found by a calculation outside this project.
    assert_eq!(GENERATOR, [1, 7, 9, 3, 12, 10, 12]);
    // The check value that catalogues give for CRC-8/SMBUS. What the bytes before
    // it leave joins each byte.
    let bytes = b"123456789".iter();
    assert_eq!(bytes.fold(0, |left, &byte| crc(left ^ u64::from(byte))), 0xF4);
}

#[test]
fn the_frames_worked_out() {
    for (time, frame) in WORKED_OUT {
        assert_eq!(Sent::of_time(time).frame(), frame, "independent frame of {time:?}");
        assert_eq!(writing_polish(time, &[0; FRAME]), 0);
        assert_eq!(reading_polish(&frame), Ok(time));
    }
}

#[test]
fn what_is_written_reads_back() {
    const COUNT: usize = 1_000_000;
    let mut before = [0xFF; FRAME];
    for time in times("written and read", COUNT) {
        assert_eq!(writing_polish(time, &before), 0);
        before = Sent::of_time(time).frame();
        assert_eq!(reading_polish(&before), Ok(time));
    }
    report("times written and read back", COUNT);
}

#[test]
fn a_field_too_wide_is_refused() {
    for time in times("too wide", 100) {
        let before = [9; FRAME];
        for periods in [LAST + 1, LAST + 2, 1 << 31, u32::MAX] {
            assert_eq!(writing_polish(Polish { periods, ..time }, &before), WRONG_SIZE);
        }
        for flags in fields::one_changed(time.bytes()) {
            let wide = flags.iter().any(|&flag| flag > 1);
            let refusal = writing_polish(Polish::of_bytes(time.periods, flags), &before);
            assert_eq!(refusal, if wide { WRONG_SIZE } else { 0 }, "flags {flags:?}");
        }
    }
}

#[test]
fn every_length() {
    let mut random = Random::named("lengths of frames");
    for len in 0..=20 {
        let refusal = if len == FRAME { 0 } else { WRONG_SIZE };
        for time in times("times of frames", 40) {
            let good = Sent::of_time(time).frame().repeat(2);
            let bytes: Vec<u8> = (0..len).map(|_| random.number() as u8).collect();
            for content in [&good[..len], &bytes] {
                let answer = reading_polish(content);
                assert_eq!(answer == Err(WRONG_SIZE), len != FRAME, "length {len}");
                assert_eq!(writing_polish(time, content), refusal, "length {len}");
                assert_eq!(writing_polish(Polish { tzc: 2, ..time }, content), WRONG_SIZE);
            }
        }
    }
}

#[test]
fn wrong_fixed_bits_come_first() {
    const COUNT: usize = 100_000;
    let mut random = Random::named("fixed bits");
    // Changes of the first four bytes as one number, of which the last five
    // bits are not fixed: each fixed bit alone a thousand times, then any of them.
    let mut changes: Vec<u32> = (5..32).map(|place| 1 << place).collect::<Vec<_>>().repeat(1_000);
    changes.resize_with(COUNT, || (1 + random.below((1 << 27) - 1) as u32) << 5);
    for change in changes {
        let good = Sent::of_time(random.polish());
        let far = Sent { word: random.number() >> 4, ..good };
        for mut frame in [good.frame(), far.frame()] {
            frame.iter_mut().zip(change.to_be_bytes()).for_each(|(byte, change)| *byte ^= change);
            assert_eq!(reading_polish(&frame), Err(WRONG_FIXED_BITS));
        }
    }
    report("wrong fixed bits", 2 * COUNT);
}

/// What must be read where one byte of a frame is changed. Bytes 4 to 11 lie in
/// at most three symbols each, but for the fixed bits and SK1.
fn with_one_byte_changed(time: Polish, place: usize, change: u8) -> Result<Polish, u8> {
    match (place, change) {
        (_, 0) => Ok(time),
        (0..=2, _) | (3, 32..) => Err(WRONG_FIXED_BITS),
        (7, _) if change % 2 == 1 => Err(WRONG_CRC),
        (11, _) => Err(WRONG_CRC),
        _ => Ok(time),
    }
}

#[test]
fn every_change_of_one_byte() {
    let mut count = 0;
    for time in times("one byte changed", 300) {
        for place in 0..FRAME {
            for change in 0..=u8::MAX {
                let mut frame = Sent::of_time(time).frame();
                frame[place] ^= change;
                let expected = with_one_byte_changed(time, place, change);
                assert_eq!(reading_polish(&frame), expected, "byte {place} by {change:#x}");
                count += 1;
            }
        }
    }
    report("changes of one byte", count);
}

/// Every pattern with a wrong symbol at each of these places and nowhere else.
fn patterns_at(places: u64) -> Vec<u64> {
    let wrong = (0..SYMBOLS).filter(|place| places >> place & 1 != 0);
    wrong.fold(vec![0], |patterns, place| {
        let values = (1..16).map(|value: u64| value << (4 * place));
        values.flat_map(|value| patterns.iter().map(move |pattern| pattern | value)).collect()
    })
}

#[test]
fn all_patterns_of_up_to_three_wrong_symbols_are_mended() {
    let mut random = Random::named("wrong symbols");
    let of_symbols = |count| changes::of_places(count).take_while(|places| places >> SYMBOLS == 0);
    let patterns: Vec<u64> = (1..=3).flat_map(of_symbols).flat_map(patterns_at).collect();
    assert_eq!(patterns.len(), 15 * 15 + 105 * 225 + 455 * 3_375);
    for &pattern in &patterns {
        let time = random.polish();
        must_read(Sent::of_time(time), pattern, Ok(time));
    }
    report("patterns of one to three wrong symbols", patterns.len());
}

#[test]
fn sk1_and_the_crc_are_not_mended() {
    const COUNT: usize = 10_000;
    let mut random = Random::named("not mended");
    for time in times("not mended of", COUNT) {
        let sent = Sent::of_time(time);
        let other = Sent { sk1: sent.sk1 ^ 1, ..sent };
        for pattern in [0, 1, 2, 3].map(|wrong| random.pattern(wrong)) {
            for bit in 0..8 {
                let crc = sent.crc ^ 1 << bit;
                must_read(Sent { crc, ..sent }, pattern, Err(WRONG_CRC));
            }
            must_read(other, pattern, Err(WRONG_CRC));
            // With the CRC that belongs to it, it is another time.
            let time = Polish { sk1: time.sk1 ^ 1, ..time };
            must_read(Sent { crc: other.right_crc(), ..other }, pattern, Ok(time));
        }
    }
    report("frames with a wrong SK1 or CRC", COUNT * 4 * 10);
}

/// How often a time was read, and each refusal given, by its number.
#[derive(Debug)]
struct Answers([usize; 23]);

impl Answers {
    fn count(&mut self, answer: Result<Polish, u8>) {
        self.0[usize::from(answer.err().unwrap_or(0))] += 1;
    }

    /// None of these may have been left out.
    fn must_have(&self, numbers: &[u8], least: usize) {
        let often = |&number: &u8| self.0[usize::from(number)] >= least;
        assert!(numbers.iter().all(often), "{self:?}");
    }
}

#[test]
fn four_and_five_wrong_symbols() {
    const COUNT: usize = 1_000_000;
    let mut random = Random::named("too many wrong symbols");
    let mut answers = Answers([0; 23]);
    for _ in 0..COUNT {
        let time = random.polish();
        let sent = Sent::of_time(time);
        for pattern in [4, 5].map(|wrong| random.pattern(wrong)) {
            let answer = reading_polish(&Sent { word: sent.word ^ pattern, ..sent }.frame());
            // Another codeword may be near, and then it tells another time.
            assert_ne!(answer, Ok(time), "symbols changed by {pattern:#x}");
            answers.count(answer);
        }
    }
    answers.must_have(&[0, NO_CODEWORD, WRONG_CRC], COUNT / 10_000);
    report("frames with four or five wrong symbols", 2 * COUNT);
}

/// A good frame, damaged or made up in a way that the random numbers choose.
fn perhaps_damaged(random: &mut Random, good: Sent) -> [u8; FRAME] {
    let wrong = random.below(4);
    let near = Sent { word: good.word ^ random.pattern(wrong), ..good };
    let far = Sent { word: random.number() >> 4, ..good };
    let (crc, sk1) = (random.number() >> 56, random.number() & 1);
    let sent = match random.below(8) {
        0 => good,
        1 => near,
        2 => Sent { crc, ..near },
        3 => Sent { crc: near.right_crc(), ..near },
        4 => Sent { sk1, ..near },
        5 => Sent { crc, sk1, ..far },
        6 => Sent { crc: far.mended().map_or(crc, Sent::right_crc), ..far },
        _ => return std::array::from_fn(|_| random.number() as u8),
    };
    sent.frame()
}

#[test]
fn five_million_random_frames() {
    const COUNT: usize = 5_000_000;
    let mut random = Random::named("frames");
    let mut before = [0; FRAME];
    let mut answers = Answers([0; 23]);
    for _ in 0..COUNT {
        let time = random.polish();
        assert_eq!(writing_polish(time, &before), 0);
        before = perhaps_damaged(&mut random, Sent::of_time(time));
        answers.count(reading_polish(&before));
    }
    answers.must_have(&[0, WRONG_FIXED_BITS, NO_CODEWORD, WRONG_CRC], COUNT / 100);
    report("random frames written and read", COUNT);
}
