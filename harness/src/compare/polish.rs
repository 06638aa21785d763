//! The Polish frame.

use super::Guarded;
use crate::face::{self, Polish, PolishAnswer};
use crate::independent::polish;

/// Compares a reading; gives the answer on which both agree.
pub fn reading_polish(frame: &[u8]) -> Result<Polish, u8> {
    let mut lent = Guarded::holding(frame);
    let answer = face::read_polish(lent.content());
    let expected = polish::read(frame);
    assert_eq!(
        (answer, lent.after()),
        (PolishAnswer::from(expected), Guarded::holding(frame)),
        "reading {frame:02x?}"
    );
    expected
}

/// Compares a writing over a copy of `before`; gives the refusal on which both agree.
pub fn writing_polish(time: Polish, before: &[u8]) -> u8 {
    let mut lent = Guarded::holding(before);
    let refusal = face::write_polish(time, lent.content());
    let expected = match polish::write(time, before.len()) {
        Ok(frame) => (0, Guarded::holding(&frame)),
        Err(refusal) => (refusal, Guarded::holding(before)),
    };
    assert_eq!((refusal, lent.after()), expected, "writing {time:?} over {before:02x?}");
    refusal
}
