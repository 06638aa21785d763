//! The block as a number, by the division circuit: the register is the top of
//! the number, and what stands behind it comes in bit by bit.

use harness::face::{Block, Packed};
use harness::independent::{GENERATOR, PREFIX};
use harness::refusals::{NUMBER_TOO_WIDE, OUT_OF_RANGE, WRONG_PREFIX};

/// The thirteen places of the register, at the top of a number.
const REGISTER: u32 = 64 - 13;

/// The generator there, without its leading power, which the shift takes away.
const TAPS: u64 = GENERATOR << REGISTER;

/// What division leaves of 49 bits: one turn for each of the first 36.
fn left_of(bits: u64) -> u64 {
    let mut number = bits << (64 - 49);
    for _ in 0..36 {
        // A 1 that comes out at the top feeds back.
        let out = (number as i64 >> 63) as u64;
        number = number << 1 ^ out & TAPS;
    }
    number >> REGISTER
}

pub extern "C" fn read(block: u64) -> Block {
    if block >= PREFIX * 2 {
        return Block::refused(NUMBER_TOO_WIDE);
    }
    if block < PREFIX {
        return Block::refused(WRONG_PREFIX);
    }
    let left = left_of(block ^ PREFIX);
    if left != 0 {
        return Block::leaving(left as u16);
    }
    Block::taken((block >> 45 & 15) as u8, (block >> 13) as u32)
}

pub fn write(code: u8, word: u32) -> Packed {
    if code > 15 {
        return Packed { refusal: OUT_OF_RANGE, block: 0 };
    }
    let message = (u64::from(code) << 32 | u64::from(word)) << 13;
    Packed { refusal: 0, block: PREFIX | message | left_of(message) }
}
