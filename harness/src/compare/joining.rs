//! The remainders of strings and of strings joined.

use super::Guarded;
use crate::face::{self, Remainder};
use crate::independent::joining;

/// Compares a division; gives the answer on which both agree.
pub fn dividing(bits: &[u8]) -> Result<u16, u8> {
    let mut lent = Guarded::holding(bits);
    let answer = face::remainder_of(lent.content());
    let expected = joining::remainder_of(bits);
    assert_eq!(answer, Remainder::from(expected), "dividing {} bytes", bits.len());
    assert!(lent.after() == Guarded::holding(bits), "a division changed its bits");
    expected
}

/// Compares a join; gives the answer on which both agree.
pub fn joining(first: u16, second: u16, length: u32) -> Result<u16, u8> {
    let answer = face::join(first, second, length);
    let expected = joining::join(first, second, length);
    assert_eq!(
        answer,
        Remainder::from(expected),
        "joining {first:#x} and {second:#x} of {length} bits"
    );
    expected
}
