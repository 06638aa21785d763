//! A receiver that is watched: beside its state it is kept what happened to lock
//! and time, and from this the library says why a dial is blank.

use super::record::parts;
use super::{Counts, PackedState};
use crate::independent::watch::Why;

/// It has gaps between its fields, as the state in it has. The default is a fresh
/// one.
#[repr(C)]
#[derive(Clone, Copy, Debug, Default, PartialEq)]
pub struct Watch {
    pub state: PackedState,
    /// Bits fed since the fresh watch.
    pub fed: u64,
    /// The bit of the last loss of lock, 0 where there is none, as below.
    pub lost: u64,
    /// That of the last time dropped since the present lock.
    pub dropped: u64,
    /// That of the block that made the held candidate, where it displaced a record.
    pub displaced: u64,
}

/// How the time stands; the kinds are numbered as `include/longwave.h` has them.
#[repr(C)]
#[derive(Clone, Copy, Debug, PartialEq)]
pub struct Standing {
    pub refusal: u8,
    pub kind: u8,
    pub bit: u64,
}

impl From<Result<Why, u8>> for Standing {
    fn from(answer: Result<Why, u8>) -> Self {
        let (refusal, (kind, bit)) = parts(answer.map(numbers));
        Standing { refusal, kind, bit }
    }
}

/// The number of a kind, and the bit where it tells one.
fn numbers(why: Why) -> (u8, u64) {
    match why {
        Why::Confirmed => (1, 0),
        Why::LockLost(bit) => (2, bit),
        Why::NeverLocked => (3, 0),
        Why::BlockMissing(bit) => (4, bit),
        Why::NoUsableBlock => (5, 0),
        Why::NotNextMinute(bit) => (6, bit),
        Why::TooYoung => (7, 0),
    }
}

extern "C" {
    fn lw_watch_fresh() -> Watch;
    fn lw_watch_run(edition: u16, watch: *mut Watch, bits: *const u8, len: usize) -> Counts;
    fn lw_why(edition: u16, watch: Watch) -> Standing;
}

// As with blocks, references stand behind the pointers.

/// A fresh watch.
pub fn watch_fresh() -> Watch {
    unsafe { lw_watch_fresh() }
}

/// Feeds a slice of bits to a receiver that is watched.
pub fn watch_run(edition: u16, watch: &mut Watch, bits: &[u8]) -> Counts {
    unsafe { lw_watch_run(edition, watch, bits.as_ptr(), bits.len()) }
}

/// How the time stands.
pub fn why(edition: u16, watch: Watch) -> Standing {
    unsafe { lw_why(edition, watch) }
}
