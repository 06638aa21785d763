//! The receiver's state in its packed layout, a different way to keep what the
//! history tells.

use super::packed::{pack, unpack};
use super::{receiver, Edition, BLOCK};
use crate::face::{PackedState, State};

/// The packed layout of a state, unless one of its fifty places holds no bit.
pub fn packed(state: &State) -> Option<PackedState> {
    let State { mode, good, bad, waiting, bits, time, record, age } = *state;
    let bits = pack(&bits).ok()?;
    Some(PackedState { mode, good, bad, waiting, bits, time, record, age })
}

/// The fifty-byte layout of a packed state, unless a bit stands above place 49.
pub fn unpacked(state: &PackedState) -> Option<State> {
    let bits = unpack(state.bits, BLOCK).ok()?;
    Some(holding(state, state.waiting, bits))
}

/// The state with these bits in place of its own.
fn holding(state: &PackedState, waiting: u8, bits: [u8; BLOCK]) -> State {
    let PackedState { mode, good, bad, time, record, age, .. } = *state;
    State { mode, good, bad, waiting, bits, time, record, age }
}

/// Whether a packed state is proper under an edition: the waiting bits lie in
/// place 49 and below it, no other place is in use, and the rest is as in any
/// proper state.
pub fn is_proper(edition: Edition, state: &PackedState) -> bool {
    let waiting = state.waiting.into();
    let mut outside = (0..64).filter(|&place| !in_use(place, waiting));
    waiting < BLOCK
        && outside.all(|place| state.bits >> place & 1 == 0)
        && receiver::is_proper(edition, &holding(state, 0, [0; BLOCK]))
}

/// Whether one of so many waiting bits lies in this place.
fn in_use(place: usize, waiting: usize) -> bool {
    place < BLOCK && place + waiting >= BLOCK
}
