//! The receiver's state, its counts and the calls that feed it.

use super::Record;
use crate::independent::BLOCK;

pub const HUNTING: u8 = 0;
pub const TRYING: u8 = 1;
pub const LOCKED: u8 = 2;

pub const NO_TIME: u8 = 0;
pub const CANDIDATE: u8 = 1;
pub const CONFIRMED: u8 = 2;

#[repr(C)]
#[derive(Clone, Copy, Debug, PartialEq)]
pub struct State {
    pub mode: u8,
    pub good: u8,
    pub bad: u8,
    pub waiting: u8,
    pub bits: [u8; BLOCK],
    pub time: u8,
    pub record: Record,
    pub age: u8,
}

/// How many bytes a state is; it has no gaps.
pub const STATE: usize = size_of::<State>();

impl State {
    /// Hunting, with nothing waiting and no time.
    pub const FRESH: State = State::of_bytes([0; STATE]);

    pub const fn of_bytes(bytes: [u8; STATE]) -> Self {
        // Every field is made of bytes that may have any value.
        unsafe { std::mem::transmute(bytes) }
    }

    pub const fn bytes(self) -> [u8; STATE] {
        unsafe { std::mem::transmute(self) }
    }

    /// The same with these bits waiting, at most fifty.
    pub fn with_waiting(self, bits: &[u8]) -> Self {
        let mut state = State { waiting: bits.len() as u8, bits: [0; BLOCK], ..self };
        state.bits[..bits.len()].copy_from_slice(bits);
        state
    }
}

#[repr(C)]
#[derive(Clone, Copy, Debug, Default, PartialEq)]
pub struct Counts {
    pub refusal: u8,
    pub good: u32,
    pub bad: u32,
    pub passed: u32,
    pub waiting: u32,
    pub remainder: u16,
}

impl Counts {
    /// What a refusal with 6, 9 or 10 gives: all counts and the remainder are 0.
    pub fn refused(refusal: u8) -> Self {
        Counts { refusal, ..Counts::default() }
    }
}

extern "C" {
    fn lw_fresh() -> State;
    fn lw_feed(edition: u16, state: *mut State, bit: u8) -> Counts;
    fn lw_run(edition: u16, state: *mut State, bits: *const u8, len: usize) -> Counts;
}

// As with blocks, references stand behind the pointers.

/// A fresh state.
pub fn fresh() -> State {
    unsafe { lw_fresh() }
}

/// Feeds one bit.
pub fn feed(edition: u16, state: &mut State, bit: u8) -> Counts {
    unsafe { lw_feed(edition, state, bit) }
}

/// Feeds a slice of bits.
pub fn run(edition: u16, state: &mut State, bits: &[u8]) -> Counts {
    unsafe { lw_run(edition, state, bits.as_ptr(), bits.len()) }
}
