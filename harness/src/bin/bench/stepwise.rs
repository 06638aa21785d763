//! The receiver by hand, as document 01 tells it: each bit joins the fifty
//! places of the state, and these are judged where they stand.

use harness::face::{Block, Counts, State, HUNTING};
use harness::independent::receiver::is_proper;
use harness::independent::{Edition, BLOCK};
use harness::refusals::NOT_A_BIT;

use crate::standing::{admitted, count_read, Standing};
use crate::table;

pub fn run(edition: u16, state: &mut State, bits: &[u8]) -> Counts {
    let edition = match admitted(edition, state, bits, is_proper) {
        Ok(edition) => edition,
        Err(refused) => return refused,
    };
    let mut counts = Counts::default();
    for &bit in bits {
        if bit > 1 {
            counts.refusal = NOT_A_BIT;
            break;
        }
        step(edition, state, bit, &mut counts);
    }
    counts.waiting = state.waiting.into();
    counts
}

/// One bit, 0 or 1, to a proper state.
#[inline]
fn step(edition: Edition, state: &mut State, bit: u8, counts: &mut Counts) {
    state.bits[usize::from(state.waiting)] = bit;
    state.waiting += 1;
    if usize::from(state.waiting) == BLOCK {
        judge(edition, state, counts);
    }
}

fn judge(edition: Edition, state: &mut State, counts: &mut Counts) {
    let hunting = state.mode == HUNTING;
    // Half of all windows fail at their first bit, without a division.
    if hunting && state.bits[0] == 0 {
        return pass_over(state, counts);
    }
    let read = table::read(&state.bits);
    if hunting && read.refusal != 0 {
        pass_over(state, counts);
    } else {
        take(edition, state, read, counts);
    }
}

fn pass_over(state: &mut State, counts: &mut Counts) {
    state.bits.copy_within(1.., 0);
    state.bits[BLOCK - 1] = 0;
    state.waiting -= 1;
    counts.passed += 1;
}

/// Takes in a block that was used up and left nothing waiting. While hunting it
/// is a good one.
pub fn take(edition: Edition, state: &mut State, read: Block, counts: &mut Counts) {
    let good = count_read(read, counts);
    *state = Standing::of(state).after(edition, good).with_bytes(0, [0; BLOCK]);
}
