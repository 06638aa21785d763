//! Mending a block by trying: every change within six neighbouring places is put
//! to the test of a good block, and those that pass are counted.

use std::sync::LazyLock;

use super::packed::{self, fault};
use super::{bits_of, BLOCK, PREFIX};
use crate::changes;
use crate::refusals::{NO_SUCH_CHANGE, SEVERAL_CHANGES};

/// How many neighbouring places hold a change.
pub const SPAN: usize = 6;

/// Every change that may mend a block.
pub static CHANGES: LazyLock<Vec<u64>> = LazyLock::new(|| changes::bursts_within(SPAN).collect());

/// What each of them adds to the fault, in the same order: that of a good block so
/// changed.
static FAULTS: LazyLock<Vec<u16>> =
    LazyLock::new(|| CHANGES.iter().map(|change| fault(PREFIX ^ change) as u16).collect());

/// Those of the changes that make fifty bits a good block, each applied and read.
pub fn making_good(block: u64) -> impl Iterator<Item = u64> {
    CHANGES.iter().copied().filter(move |change| packed::read(block ^ change).is_ok())
}

/// The only change that makes fifty bits a good block, or the refusal. It is the
/// one that adds the very fault they have: so nothing is divided 1,471 times.
pub fn only_change(block: u64) -> Result<u64, u8> {
    let own = fault(block) as u16;
    match FAULTS.iter().filter(|&&added| added == own).count() {
        0 => Err(NO_SUCH_CHANGE),
        1 => {
            let found = FAULTS.iter().position(|&added| added == own);
            Ok(CHANGES[found.expect("one was counted")])
        }
        _ => Err(SEVERAL_CHANGES),
    }
}

/// The first changed place and the pattern of six places from there on, the first
/// of them highest.
pub fn place_and_pattern(change: u64) -> (u8, u8) {
    let first = change.leading_zeros() - PREFIX.leading_zeros();
    (first as u8, (change << first >> (BLOCK - SPAN)) as u8)
}

/// Place and pattern of what was changed, zeros where nothing was, and the fifty
/// bits as they are then; or the refusal.
pub fn mend(bits: &[u8]) -> Result<((u8, u8), [u8; BLOCK]), u8> {
    let block = packed::pack(bits)?;
    if packed::read(block).is_ok() {
        return Ok(((0, 0), bits_of(block)));
    }
    let change = only_change(block)?;
    Ok((place_and_pattern(change), bits_of(block ^ change)))
}
