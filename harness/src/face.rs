//! Safe calls to the library, as `include/longwave.h` declares them.

mod halves;
mod joining;
mod journal;
mod mending;
mod packed;
mod packed_state;
mod polish;
mod receiver;
mod record;
mod watch;

pub use halves::*;
pub use joining::*;
pub use journal::*;
pub use mending::*;
pub use packed::*;
pub use packed_state::*;
pub use polish::*;
pub use receiver::*;
pub use record::*;
pub use watch::*;

use crate::independent::Fault;
use crate::refusals::WRONG_CHECK_WORD;

/// What was read; the numbers are those of document 01.
#[repr(C)]
#[derive(Clone, Copy, Debug, PartialEq)]
pub struct Block {
    pub refusal: u8,
    pub code: u8,
    pub word: u32,
    pub remainder: u16,
}

impl Block {
    /// What a refusal gives that tells no remainder: all else is zeros.
    pub fn refused(refusal: u8) -> Self {
        Block { refusal, code: 0, word: 0, remainder: 0 }
    }

    /// What a wrong check word gives, where the division leaves this.
    pub fn leaving(remainder: u16) -> Self {
        Block { remainder, ..Block::refused(WRONG_CHECK_WORD) }
    }

    /// A block that was taken.
    pub fn taken(code: u8, word: u32) -> Self {
        Block { refusal: 0, code, word, remainder: 0 }
    }
}

impl From<Result<(u8, u32), Fault>> for Block {
    fn from(answer: Result<(u8, u32), Fault>) -> Self {
        match answer {
            Ok((code, word)) => Block::taken(code, word),
            Err(Fault { refusal, remainder }) => Block { remainder, ..Block::refused(refusal) },
        }
    }
}

extern "C" {
    fn lw_read_block(bits: *const u8, len: usize) -> Block;
    fn lw_write_block(code: u8, word: u32, bits: *mut u8, len: usize) -> u8;
    fn lw_choose(
        first: *const u8,
        first_len: usize,
        second: *const u8,
        second_len: usize,
        number: *mut u8,
        remainder: *mut u16,
    ) -> u8;
    fn lw_version() -> u32;
}

// In each call below a slice stands behind the pointers, so they are valid for
// their lengths, and what is borrowed for writing overlaps nothing else.

/// Reads a block.
pub fn read_block(bits: &[u8]) -> Block {
    unsafe { lw_read_block(bits.as_ptr(), bits.len()) }
}

/// Writes a block over `bits` and answers the refusal, 0 when written.
pub fn write_block(code: u8, word: u32, bits: &mut [u8]) -> u8 {
    unsafe { lw_write_block(code, word, bits.as_mut_ptr(), bits.len()) }
}

/// Answers 1 for the first, 2 for the second, 0 for neither, and sets `number`
/// and `remainder`.
pub fn choose(first: &[u8], second: &[u8], number: &mut u8, remainder: &mut u16) -> u8 {
    let (first, first_len) = (first.as_ptr(), first.len());
    let (second, second_len) = (second.as_ptr(), second.len());
    unsafe { lw_choose(first, first_len, second, second_len, number, remainder) }
}

/// The library's version.
pub fn version() -> u32 {
    unsafe { lw_version() }
}
