//! The receiver's state with its waiting bits in one number, and the calls that
//! feed it.

use super::{Counts, Record};

/// It has gaps between its fields, so it is compared by these and never taken
/// for bytes. The default is a fresh one.
#[repr(C)]
#[derive(Clone, Copy, Debug, Default, PartialEq)]
pub struct PackedState {
    pub mode: u8,
    pub good: u8,
    pub bad: u8,
    pub waiting: u8,
    /// The first waiting bit in place 49, the next in 48.
    pub bits: u64,
    pub time: u8,
    pub record: Record,
    pub age: u8,
}

extern "C" {
    fn lw_fresh_packed() -> PackedState;
    fn lw_feed_packed(edition: u16, state: *mut PackedState, bit: u8) -> Counts;
    fn lw_run_packed(edition: u16, state: *mut PackedState, bits: *const u8, len: usize) -> Counts;
}

// As with blocks, references stand behind the pointers.

/// A fresh packed state.
pub fn fresh_packed() -> PackedState {
    unsafe { lw_fresh_packed() }
}

/// Feeds one bit.
pub fn feed_packed(edition: u16, state: &mut PackedState, bit: u8) -> Counts {
    unsafe { lw_feed_packed(edition, state, bit) }
}

/// Feeds a slice of bits.
pub fn run_packed(edition: u16, state: &mut PackedState, bits: &[u8]) -> Counts {
    unsafe { lw_run_packed(edition, state, bits.as_ptr(), bits.len()) }
}
