//! The block that stays one number: bit 49 is the first sent, and nothing
//! stands above it.

use super::{between, bits_of, block, number_of, remainder, Fault, BLOCK, PREFIX};
use crate::refusals::{NOT_A_BIT, NUMBER_TOO_WIDE, OUT_OF_RANGE, WRONG_LENGTH, WRONG_PREFIX};

/// The largest number of fifty bits.
pub const LARGEST: u64 = PREFIX * 2 - 1;

/// Code and word, or the refusal.
pub fn read(block: u64) -> Result<(u8, u32), Fault> {
    if block > LARGEST {
        return Err(NUMBER_TOO_WIDE.into());
    }
    if block & PREFIX == 0 {
        return Err(WRONG_PREFIX.into());
    }
    // All fifty bits, the first inverted, divide evenly exactly when the check
    // word is the remainder.
    let left = remainder(block ^ PREFIX);
    if left != 0 {
        return Err(Fault::leaving(left));
    }
    Ok(((block >> 45 & 15) as u8, (block >> 13) as u32))
}

/// What keeps fifty bits from being a good block, as fourteen bits: a wrong prefix
/// above the remainder of the rest. It is zero exactly where they are good, and a
/// change adds an amount of its own to it, whatever they are.
pub fn fault(block: u64) -> u64 {
    let inverted = block ^ PREFIX;
    inverted >> 49 << 13 | remainder(inverted & (PREFIX - 1))
}

/// The block, or the refusal.
pub fn write(code: u8, word: u32) -> Result<u64, u8> {
    if code > 15 {
        return Err(OUT_OF_RANGE);
    }
    Ok(block(code, word))
}

/// Which of the two is the block, 0 for neither, and the number and the
/// remainder beside it.
pub fn choose(first: u64, second: u64) -> (u8, u8, u16) {
    between(read(first), read(second))
}

/// Fifty bits, a good block or not, as a number, or the refusal.
pub fn pack(bits: &[u8]) -> Result<u64, u8> {
    if bits.len() != BLOCK {
        return Err(WRONG_LENGTH);
    }
    if bits.iter().any(|&bit| bit > 1) {
        return Err(NOT_A_BIT);
    }
    Ok(number_of(bits))
}

/// The fifty bits to be written into a slice of `len`, or the refusal.
pub fn unpack(block: u64, len: usize) -> Result<[u8; BLOCK], u8> {
    if len != BLOCK {
        Err(WRONG_LENGTH)
    } else if block > LARGEST {
        Err(NUMBER_TOO_WIDE)
    } else {
        Ok(bits_of(block))
    }
}
