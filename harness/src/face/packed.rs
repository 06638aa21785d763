//! The block as one number: the first sent bit in place 49.

use super::record::parts;
use super::Block;

/// What was written or packed.
#[repr(C)]
#[derive(Clone, Copy, Debug, PartialEq)]
pub struct Packed {
    pub refusal: u8,
    pub block: u64,
}

impl From<Result<u64, u8>> for Packed {
    fn from(answer: Result<u64, u8>) -> Self {
        let (refusal, block) = parts(answer);
        Packed { refusal, block }
    }
}

extern "C" {
    fn lw_read_packed(block: u64) -> Block;
    fn lw_write_packed(code: u8, word: u32) -> Packed;
    fn lw_choose_packed(first: u64, second: u64, number: *mut u8, remainder: *mut u16) -> u8;
    fn lw_pack(bits: *const u8, len: usize) -> Packed;
    fn lw_unpack(block: u64, bits: *mut u8, len: usize) -> u8;
}

// As with blocks of bytes, slices and references stand behind the pointers.

/// Reads a block from a number.
#[inline]
pub fn read_packed(block: u64) -> Block {
    unsafe { lw_read_packed(block) }
}

/// The block of a code and a word as a number.
pub fn write_packed(code: u8, word: u32) -> Packed {
    unsafe { lw_write_packed(code, word) }
}

/// Answers 1 for the first, 2 for the second, 0 for neither, and sets `number`
/// and `remainder`.
pub fn choose_packed(first: u64, second: u64, number: &mut u8, remainder: &mut u16) -> u8 {
    unsafe { lw_choose_packed(first, second, number, remainder) }
}

/// Fifty bits as a number.
pub fn pack(bits: &[u8]) -> Packed {
    unsafe { lw_pack(bits.as_ptr(), bits.len()) }
}

/// Writes the bits of a number over `bits` and answers the refusal, 0 when written.
pub fn unpack(block: u64, bits: &mut [u8]) -> u8 {
    unsafe { lw_unpack(block, bits.as_mut_ptr(), bits.len()) }
}
