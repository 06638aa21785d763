//! The block as one number: each call beside the independent program, and
//! beside the call on bytes where the number has fifty of them.

use std::hint::black_box;

use super::{must_tell_with_4_alone, Guarded, Told};
use crate::face::{self, Block, Packed};
use crate::independent::packed::{self, LARGEST};
use crate::independent::{bits_of, BLOCK};

/// Compares the reading of a number; gives the answer on which all agree.
pub fn reading_packed(block: u64) -> Block {
    let answer = face::read_packed(block);
    assert_eq!(answer, Block::from(packed::read(block)), "reading {block:#o}");
    if block <= LARGEST {
        assert_eq!(answer, face::read_block(&bits_of(block)), "reading the bits of {block:#o}");
    }
    must_tell_with_4_alone(answer);
    answer
}

/// Compares the writing of a number; gives the answer on which all agree.
pub fn writing_packed(code: u8, word: u32) -> Packed {
    let answer = face::write_packed(code, word);
    let expected = Packed::from(packed::write(code, word));
    assert_eq!(answer, expected, "writing code {code}, word {word:#x}");
    let mut bits = [0; BLOCK];
    let written = match face::write_block(code, word, &mut bits) {
        0 => packed::pack(&bits),
        refusal => Err(refusal),
    };
    assert_eq!(answer, Packed::from(written), "the bytes of code {code}, word {word:#x}");
    answer
}

/// Compares a choice with `rubbish` in what is lent to be written; gives which
/// was chosen, the number and the remainder on which all agree.
pub fn choosing_packed(first: u64, second: u64, rubbish: u8) -> (u8, u8, u16) {
    let mut told = Told::rubbish(rubbish);
    let Told(number, remainder) = &mut told;
    let which = face::choose_packed(first, second, &mut number.value, &mut remainder.value);
    let expected = packed::choose(first, second);
    assert_eq!(
        (which, black_box(told)),
        (expected.0, Told::holding(expected.1, expected.2)),
        "choosing between {first:#o} and {second:#o}, {rubbish} in every byte before"
    );
    if first.max(second) <= LARGEST {
        let bits = [first, second].map(bits_of);
        let (mut number, mut remainder) = (rubbish, rubbish.into());
        let which = face::choose(&bits[0], &bits[1], &mut number, &mut remainder);
        let answer = (which, number, remainder);
        assert_eq!(answer, expected, "the bits of {first:#o} and {second:#o}");
    }
    expected
}

/// Compares a packing; gives the answer on which both agree.
pub fn packing(bits: &[u8]) -> Packed {
    let mut lent = Guarded::holding(bits);
    let answer = face::pack(lent.content());
    let expected = Packed::from(packed::pack(bits));
    assert_eq!((answer, lent.after()), (expected, Guarded::holding(bits)), "packing {bits:?}");
    answer
}

/// Compares an unpacking over a copy of `before`; gives the refusal on which
/// both agree.
pub fn unpacking(block: u64, before: &[u8]) -> u8 {
    let mut lent = Guarded::holding(before);
    let refusal = face::unpack(block, lent.content());
    let expected = match packed::unpack(block, before.len()) {
        Ok(bits) => (0, Guarded::holding(&bits)),
        Err(refusal) => (refusal, Guarded::holding(before)),
    };
    assert_eq!((refusal, lent.after()), expected, "unpacking {block:#o} over {before:?}");
    refusal
}
