//! One call to the library and the same question to the independent program:
//! answers and every lent byte must agree, and no byte beside them may change.

mod halves;
mod joining;
mod journal;
mod mending;
mod packed;
mod polish;
mod receiver;
mod record;
mod watch;

pub use halves::*;
pub use joining::*;
pub use journal::*;
pub use mending::*;
pub use packed::*;
pub use polish::*;
pub use receiver::*;
pub use record::*;
pub use watch::*;

use std::hint::black_box;

use crate::face::{self, Block};
use crate::independent;
use crate::refusals::WRONG_CHECK_WORD;

const GUARD: [u8; 16] = [0xA5; 16];

/// A copy of some bytes with guards on both sides, to be lent to the library.
#[derive(Debug, PartialEq)]
struct Guarded(Vec<u8>);

impl Guarded {
    fn holding(content: &[u8]) -> Self {
        Guarded([&GUARD, content, &GUARD].concat())
    }

    fn content(&mut self) -> &mut [u8] {
        let end = self.0.len() - GUARD.len();
        &mut self.0[GUARD.len()..end]
    }

    /// What it holds after a call. The black box keeps the compiler from
    /// supposing that bytes lent for reading came back as they were.
    fn after(self) -> Self {
        black_box(self)
    }
}

/// A value with guards on both sides, to be lent to the library.
#[repr(C)]
#[derive(Debug, PartialEq)]
struct Lent<T> {
    before: [u8; GUARD.len()],
    value: T,
    after: [u8; GUARD.len()],
}

impl<T> Lent<T> {
    fn holding(value: T) -> Self {
        Lent { before: GUARD, value, after: GUARD }
    }
}

/// What a chooser is lent to write to: a number and a remainder.
#[derive(Debug, PartialEq)]
struct Told(Lent<u8>, Lent<u16>);

impl Told {
    fn holding(number: u8, remainder: u16) -> Self {
        Told(Lent::holding(number), Lent::holding(remainder))
    }

    /// This in every byte.
    fn rubbish(byte: u8) -> Self {
        Told::holding(byte, u16::from_ne_bytes([byte; 2]))
    }
}

/// Compares a reading; gives the answer on which both agree.
pub fn reading(bits: &[u8]) -> Block {
    let mut lent = Guarded::holding(bits);
    let answer = face::read_block(lent.content());
    let expected = Block::from(independent::read(bits));
    assert_eq!((answer, lent.after()), (expected, Guarded::holding(bits)), "reading {bits:?}");
    must_tell_with_4_alone(answer);
    answer
}

/// With a wrong check word the remainder has one to thirteen bits, else none.
fn must_tell_with_4_alone(answer: Block) {
    let allowed = if answer.refusal == WRONG_CHECK_WORD { 1..=8191 } else { 0..=0 };
    assert!(allowed.contains(&answer.remainder), "{answer:?}");
}

/// Compares a writing over a copy of `before`; gives the refusal on which both agree.
pub fn writing(code: u8, word: u32, before: &[u8]) -> u8 {
    let mut lent = Guarded::holding(before);
    let refusal = face::write_block(code, word, lent.content());
    let expected = match independent::write(code, word, before.len()) {
        Ok(bits) => (0, Guarded::holding(&bits)),
        Err(refusal) => (refusal, Guarded::holding(before)),
    };
    assert_eq!(
        (refusal, lent.after()),
        expected,
        "writing code {code}, word {word:#x} over {before:?}"
    );
    refusal
}

/// Compares a choice with `rubbish` in what is lent to be written; gives which
/// was chosen, the number and the remainder on which both agree.
pub fn choosing(first: &[u8], second: &[u8], rubbish: u8) -> (u8, u8, u16) {
    let mut lent = [first, second].map(Guarded::holding);
    let mut told = Told::rubbish(rubbish);
    let [one, other] = &mut lent;
    let Told(number, remainder) = &mut told;
    let which =
        face::choose(one.content(), other.content(), &mut number.value, &mut remainder.value);
    let expected = independent::choose(first, second);
    assert_eq!(
        (which, lent.map(Guarded::after), black_box(told)),
        (expected.0, [first, second].map(Guarded::holding), Told::holding(expected.1, expected.2)),
        "choosing between {first:?} and {second:?}, {rubbish} in every byte before"
    );
    expected
}
