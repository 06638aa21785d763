//! The receiver by hand on numbers: the waiting bits are one number, and beside
//! it the division circuit's register turns once for each bit, in every mode.

use harness::face::{Counts, PackedState, State, HUNTING, LOCKED};
use harness::independent::packed_state::{is_proper, packed, unpacked};
use harness::independent::receiver;
use harness::independent::{remainder, Edition, BLOCK, GENERATOR, PREFIX};
use harness::refusals::NOT_A_BIT;

use crate::standing::{admitted, count, tell, Said, Standing};

/// What the first of fifty bits put into the register.
const FIRST: u64 = remainder(PREFIX);

/// The circuit's turn: a 1 that comes out at the top feeds back.
#[inline]
pub fn turned(register: u64, bit: u8) -> u64 {
    let shifted = register << 1 | u64::from(bit);
    if register >> 12 == 1 {
        shifted ^ GENERATOR
    } else {
        shifted
    }
}

/// The waiting bits, the last in place 0, and what the register holds of them.
#[derive(Clone, Copy, Default)]
struct Window {
    bits: u64,
    register: u64,
    waiting: usize,
}

impl Window {
    fn of(state: &PackedState) -> Self {
        let waiting = usize::from(state.waiting);
        let bits = state.bits >> (BLOCK - waiting);
        Window { bits, register: remainder(bits), waiting }
    }

    #[inline]
    fn join(&mut self, bit: u8) {
        self.bits = self.bits << 1 | u64::from(bit);
        self.register = turned(self.register, bit);
        self.waiting += 1;
    }

    /// Takes the first of fifty bits off again, by linearity, and answers
    /// whether they were a good block: the first is 1 and the rest leaves 0.
    #[inline]
    fn pass_first(&mut self) -> bool {
        let first = self.bits >> (BLOCK - 1);
        self.bits &= PREFIX - 1;
        self.register ^= first * FIRST;
        self.waiting -= 1;
        first == 1 && self.register == 0
    }

    /// What a good window says, without its first bit.
    fn said(self) -> Said {
        Said { code: (self.bits >> 45) as u8, word: (self.bits >> 13) as u32 }
    }
}

pub struct Circuit {
    edition: Edition,
    window: Window,
    standing: Standing,
}

impl Circuit {
    /// From a state that is proper under the edition.
    pub fn of(edition: Edition, state: &PackedState) -> Self {
        Circuit { edition, window: Window::of(state), standing: Standing::of_packed(state) }
    }

    pub fn state(&self) -> PackedState {
        let Window { bits, waiting, .. } = self.window;
        self.standing.with_number(waiting as u8, bits << (BLOCK - waiting))
    }

    pub fn is_locked(&self) -> bool {
        self.standing.mode == LOCKED
    }

    /// One bit, 0 or 1. Answers whether a block was used up.
    #[inline]
    pub fn step(&mut self, bit: u8, counts: &mut Counts) -> bool {
        self.window.join(bit);
        if self.window.waiting < BLOCK {
            return false;
        }
        let first = self.window.bits >> (BLOCK - 1);
        let good = self.window.pass_first();
        if self.standing.mode == HUNTING && !good {
            counts.passed += 1;
            return false;
        }
        count(good, counts);
        if first == 1 {
            tell(self.window.register as u16, counts);
        }
        self.standing = self.standing.after(self.edition, good.then_some(self.window.said()));
        self.window = Window::default();
        true
    }
}

pub fn run(edition: u16, state: &mut PackedState, bits: &[u8]) -> Counts {
    let edition = match admitted(edition, state, bits, is_proper) {
        Ok(edition) => edition,
        Err(refused) => return refused,
    };
    let mut counts = Counts::default();
    let mut circuit = Circuit::of(edition, state);
    for &bit in bits {
        if bit > 1 {
            counts.refusal = NOT_A_BIT;
            break;
        }
        circuit.step(bit, &mut counts);
    }
    *state = circuit.state();
    counts.waiting = state.waiting.into();
    counts
}

/// The same on the fifty-byte state, which is packed before and unpacked behind.
pub fn run_fifty_bytes(edition: u16, state: &mut State, bits: &[u8]) -> Counts {
    if let Err(refused) = admitted(edition, state, bits, receiver::is_proper) {
        return refused;
    }
    let mut number = packed(state).expect("places that hold bits");
    let counts = run(edition, &mut number, bits);
    *state = unpacked(&number).expect("fifty bits");
    counts
}
