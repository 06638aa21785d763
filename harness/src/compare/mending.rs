//! Mending a block.

use super::Guarded;
use crate::face::{self, Mended};
use crate::independent::mending;
use crate::refusals::SEVERAL_CHANGES;

/// Compares the mending of a copy of `before`; gives the answer on which both
/// agree, and the bytes that both leave.
pub fn mending(before: &[u8]) -> (Mended, Vec<u8>) {
    let mut lent = Guarded::holding(before);
    let answer = face::mend_block(lent.content());
    let (expected, left) = match mending::mend(before) {
        Ok((told, bits)) => (Ok(told), bits.to_vec()),
        Err(refusal) => (Err(refusal), before.to_vec()),
    };
    assert_eq!(
        (answer, lent.after()),
        (Mended::from(expected), Guarded::holding(&left)),
        "mending {before:?}"
    );
    // No two changes leave the same remainder.
    assert_ne!(answer.refusal, SEVERAL_CHANGES, "mending {before:?}");
    (answer, left)
}
