//! The block by a table of remainders, eight bits at a time: plain Rust, shaped
//! so that the compiler can unroll it.

use harness::face::Block;
use harness::independent::{check_word, BLOCK};
use harness::refusals::{NOT_A_BIT, OUT_OF_RANGE, WRONG_LENGTH, WRONG_PREFIX};

use crate::bits::{number_of, spread};

/// The remainder of each byte times x^13.
const TABLE: [u16; 256] = {
    let mut table = [0; 256];
    let mut byte = 0;
    while byte < 256 {
        table[byte] = check_word(byte as u64) as u16;
        byte += 1;
    }
    table
};

pub fn step(register: u16, byte: u8) -> u16 {
    (register << 8 & 0x1FFF) ^ TABLE[usize::from((register >> 5) as u8 ^ byte)]
}

/// Code, word, and what the division leaves of all but the prefix.
#[inline(always)]
pub fn divided(bits: &[u8; BLOCK]) -> (u8, u32, u16) {
    let code = number_of(&bits[1..5]) as u8;
    let mut register = step(0, code);
    let mut word = 0;
    for eight in bits[5..37].chunks_exact(8) {
        let byte = number_of(eight) as u8;
        register = step(register, byte);
        word = word << 8 | u32::from(byte);
    }
    (code, word, register ^ number_of(&bits[37..]))
}

pub fn read(bits: &[u8]) -> Block {
    let Ok(bits) = <&[u8; BLOCK]>::try_from(bits) else {
        return Block::refused(WRONG_LENGTH);
    };
    if bits.iter().fold(0, |all, bit| all | bit) > 1 {
        return Block::refused(NOT_A_BIT);
    }
    if bits[0] == 0 {
        return Block::refused(WRONG_PREFIX);
    }
    let (code, word, left) = divided(bits);
    if left != 0 {
        return Block::leaving(left);
    }
    Block::taken(code, word)
}

pub fn write(code: u8, word: u32, bits: &mut [u8]) -> u8 {
    let Ok(bits) = <&mut [u8; BLOCK]>::try_from(bits) else {
        return WRONG_LENGTH;
    };
    if code > 15 {
        return OUT_OF_RANGE;
    }
    bits[0] = 1;
    spread(code.into(), &mut bits[1..5]);
    let mut register = step(0, code);
    for (eight, byte) in bits[5..37].chunks_exact_mut(8).zip(word.to_be_bytes()) {
        spread(byte.into(), eight);
        register = step(register, byte);
    }
    spread(register, &mut bits[37..]);
    0
}
