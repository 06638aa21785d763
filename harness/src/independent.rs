//! The answers, written from documents 01 and 02 alone. Here the block, by long
//! division on one number; the block that stays a number, the block that is mended,
//! the editions, the record, the calendar, the receiver, its packed state, what is
//! told of it when it is watched, the remainders of strings, the journal with its
//! report, the Polish frame, and the readings of the radio board with the whole numbers
//! they are taken as have files of their own.
//!
//! A polynomial modulo 2 is a number, one bit for each power of x, and a block
//! is its fifty bits as one number: bit 49 is the first sent.

pub mod calendar;
pub mod edition;
pub mod halves;
pub mod joining;
pub mod journal;
pub mod mending;
pub mod packed;
pub mod packed_state;
pub mod polish;
pub mod receiver;
pub mod record;
pub mod watch;
pub mod whole;

pub use edition::{Edition, EDITIONS};

use crate::refusals::{OUT_OF_RANGE, WRONG_CHECK_WORD, WRONG_LENGTH};

/// Places in a block.
pub const BLOCK: usize = 50;

/// The prefix, as a bit of the block's number.
pub const PREFIX: u64 = 1 << 49;

/// x^13+x^12+x^11+x^10+x^7+x^6+x^5+x^4+x^2+1.
pub const GENERATOR: u64 =
    1 << 13 | 1 << 12 | 1 << 11 | 1 << 10 | 1 << 7 | 1 << 6 | 1 << 5 | 1 << 4 | 1 << 2 | 1;

/// What long division by the generator leaves: while the leading power is 13 or
/// more, it is taken away with a multiple of the generator.
pub const fn remainder(mut dividend: u64) -> u64 {
    while dividend >= 1 << 13 {
        dividend ^= GENERATOR << (dividend.ilog2() - GENERATOR.ilog2());
    }
    dividend
}

/// The check word of the 36 bits of code and word.
pub const fn check_word(message: u64) -> u64 {
    remainder(message << 13)
}

/// The good block of a code up to 15 and a word.
pub fn block(code: u8, word: u32) -> u64 {
    let message = u64::from(code) << 32 | u64::from(word);
    PREFIX | message << 13 | check_word(message)
}

/// The lowest bits of a number as bytes, the highest of them first.
pub fn digits_of<const N: usize>(number: u64) -> [u8; N] {
    std::array::from_fn(|place| (number >> (N - 1 - place) & 1) as u8)
}

/// The number that such bytes write.
pub fn number_of(digits: &[u8]) -> u64 {
    digits.iter().fold(0, |number, &digit| number << 1 | u64::from(digit))
}

/// Fifty bits as bytes, in the order of sending.
pub fn bits_of(block: u64) -> [u8; BLOCK] {
    digits_of(block)
}

/// The bits of an input of characters: a newline is skipped, and anything else but 0
/// and 1 ends it.
pub fn bits_in(input: &[u8]) -> Vec<u8> {
    let until_end = input.iter().take_while(|byte| b"01\n".contains(byte));
    until_end.filter(|&&byte| byte != b'\n').map(|byte| byte - b'0').collect()
}

/// Why fifty bits are no block, and what is told with a wrong check word.
#[derive(Clone, Copy, Debug, PartialEq)]
pub struct Fault {
    pub refusal: u8,
    pub remainder: u16,
}

impl Fault {
    /// A wrong check word: the division leaves this.
    fn leaving(remainder: u64) -> Self {
        Fault { refusal: WRONG_CHECK_WORD, remainder: remainder as u16 }
    }
}

/// Any other refusal tells no remainder.
impl From<u8> for Fault {
    fn from(refusal: u8) -> Self {
        Fault { refusal, remainder: 0 }
    }
}

/// Code and word, or the refusal.
pub fn read(bits: &[u8]) -> Result<(u8, u32), Fault> {
    packed::read(packed::pack(bits)?)
}

/// The fifty bits to be written into a slice of `len`, or the refusal.
pub fn write(code: u8, word: u32, len: usize) -> Result<[u8; BLOCK], u8> {
    if len != BLOCK {
        Err(WRONG_LENGTH)
    } else if code > 15 {
        Err(OUT_OF_RANGE)
    } else {
        Ok(bits_of(block(code, word)))
    }
}

/// Which of the two holds the block, 0 for neither, and the number and the
/// remainder beside it.
pub fn choose(first: &[u8], second: &[u8]) -> (u8, u8, u16) {
    between(read(first), read(second))
}

/// The same where both were read.
fn between<T>(first: Result<T, Fault>, second: Result<T, Fault>) -> (u8, u8, u16) {
    match (first, second) {
        (Ok(_), _) => (1, 0, 0),
        (Err(_), Ok(_)) => (2, 0, 0),
        (Err(Fault { refusal, remainder }), Err(_)) => (0, refusal, remainder),
    }
}
