//! The block one bit at a time, as the report's division circuit has it.

use harness::face::Block;
use harness::independent::{BLOCK, GENERATOR};
use harness::refusals::{NOT_A_BIT, OUT_OF_RANGE, WRONG_LENGTH, WRONG_PREFIX};

use crate::bits::{number_of, spread};

/// The generator without its leading power, which the shift takes away.
const TAPS: u16 = GENERATOR as u16 & 0x1FFF;

fn step(register: u16, bit: u8) -> u16 {
    let shifted = register << 1 & 0x1FFF;
    if register >> 12 == u16::from(bit) {
        shifted
    } else {
        shifted ^ TAPS
    }
}

pub fn read(bits: &[u8]) -> Block {
    if bits.len() != BLOCK {
        return Block::refused(WRONG_LENGTH);
    }
    if bits.iter().any(|&bit| bit > 1) {
        return Block::refused(NOT_A_BIT);
    }
    if bits[0] == 0 {
        return Block::refused(WRONG_PREFIX);
    }
    let mut register = 0;
    let mut message = 0;
    for &bit in &bits[1..37] {
        register = step(register, bit);
        message = message << 1 | u64::from(bit);
    }
    let left = register ^ number_of(&bits[37..]);
    if left != 0 {
        return Block::leaving(left);
    }
    Block::taken((message >> 32) as u8, message as u32)
}

pub fn write(code: u8, word: u32, bits: &mut [u8]) -> u8 {
    if bits.len() != BLOCK {
        return WRONG_LENGTH;
    }
    if code > 15 {
        return OUT_OF_RANGE;
    }
    let message = u64::from(code) << 32 | u64::from(word);
    let mut register = 0;
    bits[0] = 1;
    for (place, bit) in bits[1..37].iter_mut().enumerate() {
        *bit = (message >> (35 - place) & 1) as u8;
        register = step(register, *bit);
    }
    spread(register, &mut bits[37..]);
    0
}
