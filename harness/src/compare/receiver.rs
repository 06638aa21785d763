//! The receiver: a state of the library, in both of its layouts at once, beside
//! the history of all it was fed, under one edition.

use std::fmt::Debug;
use std::hint::black_box;

use super::{Guarded, Lent};
use crate::face::{self, Counts, PackedState, State};
use crate::independent::packed_state::{self, packed, unpacked};
use crate::independent::receiver::{is_proper, History, RUN};
use crate::independent::Edition;
use crate::refusals::{IMPROPER, RUN_TOO_LONG};

/// A state of bits in the fifty bytes and in the packed layout.
#[derive(Debug, PartialEq)]
struct Both {
    bytes: Lent<State>,
    number: Lent<PackedState>,
}

impl Both {
    fn holding(state: State) -> Self {
        let packed = packed(&state).expect("places that hold bits");
        Both { bytes: Lent::holding(state), number: Lent::holding(packed) }
    }
}

/// A receiver of the library and its history.
pub struct Receiver {
    edition: Edition,
    state: State,
    history: History,
}

impl Receiver {
    /// A fresh one, as the library gives it.
    pub fn fresh(edition: Edition) -> Self {
        let state = face::fresh();
        let history = History::fresh(edition);
        assert_eq!(state, history.state(), "fresh state");
        assert_eq!(Some(face::fresh_packed()), packed(&state), "fresh packed state");
        Receiver { edition, state, history }
    }

    /// One that goes on from a proper state. Neither layout may lose any of it.
    pub fn going_on_from(edition: Edition, state: State) -> Self {
        let history = History::leading_to(edition, &state);
        assert_eq!(history.state(), state, "history that leads to a state");
        let packed = packed(&state).expect("places that hold bits");
        assert!(packed_state::is_proper(edition, &packed), "{packed:?}");
        assert_eq!(unpacked(&packed), Some(state), "{packed:?}");
        Receiver { edition, state, history }
    }

    /// The state on which all agree.
    pub fn state(&self) -> &State {
        &self.state
    }

    /// Compares the feeding of one bit; gives the counts on which all agree.
    pub fn feed(&mut self, bit: u8) -> Counts {
        let mut lent = Both::holding(self.state);
        let edition = self.edition.number();
        let answers = [
            face::feed(edition, &mut lent.bytes.value, bit),
            face::feed_packed(edition, &mut lent.number.value, bit),
        ];
        let expected = self.history.run(&[bit]);
        self.agree((answers, lent), expected, || format!("feeding {bit}"));
        expected
    }

    /// Compares a run; gives the counts on which all agree.
    pub fn run(&mut self, bits: &[u8]) -> Counts {
        let mut lent = Both::holding(self.state);
        let mut lent_bits = Guarded::holding(bits);
        let edition = self.edition.number();
        let answers = [
            face::run(edition, &mut lent.bytes.value, lent_bits.content()),
            face::run_packed(edition, &mut lent.number.value, lent_bits.content()),
        ];
        let expected = self.history.run(bits);
        assert!(lent_bits.after() == Guarded::holding(bits), "a run changed its bits");
        self.agree((answers, lent), expected, || format!("a run of {} bits", bits.len()));
        expected
    }

    /// In both layouts the library's counts and state must be those of the history.
    fn agree(&mut self, got: ([Counts; 2], Both), counts: Counts, what: impl Fn() -> String) {
        let state = self.history.state();
        let (edition, heard) = (self.edition, self.history.heard());
        assert_eq!(
            got,
            ([counts; 2], Both::holding(state)),
            "{}, then {heard} bits heard, {edition:?}",
            what()
        );
        self.state = state;
    }
}

/// A state that is not proper under an edition must be refused, in its packed
/// layout too, if its places hold bits.
pub fn improper(edition: Edition, state: State) {
    assert!(!is_proper(edition, &state), "{state:?}");
    must_be_refused(edition.number(), state, face::feed, face::run);
    if let Some(packed) = packed(&state) {
        improper_packed(edition, packed);
    }
}

/// A packed state that is not proper must be refused. In fifty bytes it is not
/// proper either, if it has such a layout.
pub fn improper_packed(edition: Edition, state: PackedState) {
    assert!(!packed_state::is_proper(edition, &state), "{state:?}");
    assert!(!unpacked(&state).is_some_and(|state| is_proper(edition, &state)), "{state:?}");
    must_be_refused(edition.number(), state, face::feed_packed, face::run_packed);
}

/// Under a number that names no edition any state must be refused, in its packed
/// layout too, if its places hold bits.
pub fn no_edition(number: u16, state: State) {
    assert!(Edition::named(number).is_err(), "{number}");
    must_be_refused(number, state, face::feed, face::run);
    if let Some(packed) = packed(&state) {
        must_be_refused(number, packed, face::feed_packed, face::run_packed);
    }
}

/// Feeds and runs a state that is not proper, or under a number that names no
/// edition: all must be refused, and the state must stay as it is.
fn must_be_refused<S: Copy + Debug + PartialEq>(
    edition: u16,
    state: S,
    feed: fn(u16, &mut S, u8) -> Counts,
    run: fn(u16, &mut S, &[u8]) -> Counts,
) {
    let mut lent = Lent::holding(state);
    let about = || format!("edition {edition}, {state:?}");
    for bit in [0, 1, 2, 255] {
        let refused = Counts::refused(refusal(edition, 1));
        assert_eq!(feed(edition, &mut lent.value, bit), refused, "feeding {bit}, {}", about());
        assert_eq!(run(edition, &mut lent.value, &[bit]), refused, "a run of {bit}, {}", about());
    }
    for len in [0, RUN, RUN + 1] {
        let answer = run(edition, &mut lent.value, &[1; RUN + 1][..len]);
        let refused = Counts::refused(refusal(edition, len));
        assert_eq!(answer, refused, "a run of {len} bits, {}", about());
    }
    assert_eq!(black_box(lent), Lent::holding(state), "a refused state, {}", about());
}

/// Why so many bits are refused where that is so.
fn refusal(number: u16, len: usize) -> u8 {
    match Edition::named(number) {
        Err(refusal) => refusal,
        Ok(_) if len > RUN => RUN_TOO_LONG,
        Ok(_) => IMPROPER,
    }
}
