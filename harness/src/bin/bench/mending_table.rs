//! Mending by a table of remainders: the division finds the change at once.

use harness::face::Mended;
use harness::independent::mending::SPAN;
use harness::independent::{remainder, BLOCK, PREFIX};
use harness::refusals::{NOT_A_BIT, NO_SUCH_CHANGE, WRONG_LENGTH};

use crate::table::divided;
use crate::table_number;

/// What a wrong prefix leaves.
const FIRST: u16 = remainder(PREFIX) as u16;

/// For each remainder the place and the pattern of the change within six places that
/// leaves it; there is never more than one. Pattern 0 is none.
const CHANGES: [(u8, u8); 1 << 13] = {
    let mut changes = [(0, 0); 1 << 13];
    let mut place = 0;
    while place < BLOCK {
        let mut pattern = 1 << (SPAN - 1);
        while pattern < 1 << SPAN {
            let six = (pattern as u64) << (BLOCK - SPAN);
            // Nothing past the end of the block.
            if six.trailing_zeros() as usize >= place {
                changes[remainder(six >> place) as usize] = (place as u8, pattern);
            }
            pattern += 1;
        }
        place += 1;
    }
    changes
};

/// Changes the places of a pattern from this one on. Past the end of the block the
/// pattern is 0.
fn change(bits: &mut [u8; BLOCK], place: u8, pattern: u8) {
    for (ahead, bit) in bits[usize::from(place)..].iter_mut().take(SPAN).enumerate() {
        *bit ^= pattern >> (SPAN - 1 - ahead) & 1;
    }
}

/// The change that the table holds for what is left of all but the prefix.
fn mended(bits: &mut [u8; BLOCK], rest: u16) -> Mended {
    let wrong_prefix = bits[0] == 0;
    let left = if wrong_prefix { rest ^ FIRST } else { rest };
    if left == 0 && !wrong_prefix {
        return Mended::GOOD;
    }
    let (place, pattern) = CHANGES[usize::from(left)];
    // The prefix changes exactly where it is wrong.
    if pattern == 0 || (place == 0) != wrong_prefix {
        return Err(NO_SUCH_CHANGE).into();
    }
    change(bits, place, pattern);
    Mended { refusal: 0, place, pattern }
}

/// The block becomes one number, as the library's does, and the table divides it.
pub fn mend(bits: &mut [u8]) -> Mended {
    let Ok(bits) = <&mut [u8; BLOCK]>::try_from(bits) else {
        return Err(WRONG_LENGTH).into();
    };
    let mut block = 0;
    for &bit in bits.iter() {
        if bit > 1 {
            return Err(NOT_A_BIT).into();
        }
        block = block << 1 | u64::from(bit);
    }
    mended(bits, table_number::left(block))
}

/// The block never becomes a number: each eight bytes go into the division as soon
/// as they are packed, without a test between them.
pub fn mend_by_eights(bits: &mut [u8]) -> Mended {
    let Ok(bits) = <&mut [u8; BLOCK]>::try_from(bits) else {
        return Err(WRONG_LENGTH).into();
    };
    if bits.iter().fold(0, |all, bit| all | bit) > 1 {
        return Err(NOT_A_BIT).into();
    }
    let (_, _, rest) = divided(bits);
    mended(bits, rest)
}
