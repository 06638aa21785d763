//! The block as a number, by the table of remainders.

use harness::face::{Block, Packed};
use harness::independent::PREFIX;
use harness::refusals::{NUMBER_TOO_WIDE, OUT_OF_RANGE, WRONG_PREFIX};

use crate::table::step;

/// The check word of code and word.
fn check_word(code: u8, word: u32) -> u16 {
    word.to_be_bytes().into_iter().fold(step(0, code), step)
}

/// What the division leaves of all but the prefix.
pub fn left(block: u64) -> u16 {
    check_word((block >> 45 & 15) as u8, (block >> 13) as u32) ^ block as u16 & 0x1FFF
}

pub extern "C" fn read(block: u64) -> Block {
    if block >= PREFIX * 2 {
        return Block::refused(NUMBER_TOO_WIDE);
    }
    if block < PREFIX {
        return Block::refused(WRONG_PREFIX);
    }
    let left = left(block);
    if left != 0 {
        return Block::leaving(left);
    }
    Block::taken((block >> 45 & 15) as u8, (block >> 13) as u32)
}

pub fn write(code: u8, word: u32) -> Packed {
    if code > 15 {
        return Packed { refusal: OUT_OF_RANGE, block: 0 };
    }
    let message = u64::from(code) << 32 | u64::from(word);
    let block = PREFIX | message << 13 | u64::from(check_word(code, word));
    Packed { refusal: 0, block }
}
