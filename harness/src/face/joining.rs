//! The remainder of a bit string, and of two strings joined.

use super::record::parts;

#[repr(C)]
#[derive(Clone, Copy, Debug, PartialEq)]
pub struct Remainder {
    pub refusal: u8,
    pub remainder: u16,
}

impl From<Result<u16, u8>> for Remainder {
    fn from(answer: Result<u16, u8>) -> Self {
        let (refusal, remainder) = parts(answer);
        Remainder { refusal, remainder }
    }
}

extern "C" {
    fn lw_remainder_of(bits: *const u8, len: usize) -> Remainder;
    fn lw_join(first: u16, second: u16, length: u32) -> Remainder;
}

// As with blocks, a slice stands behind the pointer.

/// What a string leaves.
pub fn remainder_of(bits: &[u8]) -> Remainder {
    unsafe { lw_remainder_of(bits.as_ptr(), bits.len()) }
}

/// What two strings leave together, from what each leaves and the second's length.
pub fn join(first: u16, second: u16, length: u32) -> Remainder {
    unsafe { lw_join(first, second, length) }
}
