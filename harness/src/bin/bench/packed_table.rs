//! The receiver by hand on numbers, faster when locked: whole blocks are gathered
//! from the caller's slice eight bits at a time and read by the table. Hunting
//! turns the circuit.

use harness::face::{Counts, PackedState, HUNTING};
use harness::independent::packed_state::is_proper;
use harness::independent::{Edition, BLOCK};
use harness::refusals::NOT_A_BIT;

use crate::circuit::Circuit;
use crate::standing::{admitted, count_read, Standing};
use crate::table_number;

pub fn run(edition: u16, state: &mut PackedState, bits: &[u8]) -> Counts {
    let edition = match admitted(edition, state, bits, is_proper) {
        Ok(edition) => edition,
        Err(refused) => return refused,
    };
    let mut counts = Counts::default();
    let mut left = bits;
    if bits.iter().fold(0, |all, bit| all | bit) > 1 {
        let end = bits.iter().position(|&bit| bit > 1).unwrap_or(bits.len());
        left = &bits[..end];
        counts.refusal = NOT_A_BIT;
    }
    while !left.is_empty() {
        left = match state.mode {
            HUNTING => hunt(edition, state, left, &mut counts),
            _ => take_block(edition, state, left, &mut counts),
        };
    }
    counts.waiting = state.waiting.into();
    counts
}

/// Goes on hunting up to a good window, and gives what is left behind it.
fn hunt<'a>(
    edition: Edition,
    state: &mut PackedState,
    bits: &'a [u8],
    counts: &mut Counts,
) -> &'a [u8] {
    // A copy, which the loop may keep in registers.
    let mut counted = *counts;
    let mut circuit = Circuit::of(edition, state);
    let mut heard = 0;
    for &bit in bits {
        heard += 1;
        if circuit.step(bit, &mut counted) {
            break;
        }
    }
    *state = circuit.state();
    *counts = counted;
    &bits[heard..]
}

/// Fills up one block, if there are bits enough, and gives what is left.
fn take_block<'a>(
    edition: Edition,
    state: &mut PackedState,
    bits: &'a [u8],
    counts: &mut Counts,
) -> &'a [u8] {
    let waiting = usize::from(state.waiting);
    let (part, left) = bits.split_at((BLOCK - waiting).min(bits.len()));
    let waits = waiting + part.len();
    let number = state.bits | gathered(part) << (BLOCK - waits);
    if waits < BLOCK {
        state.bits = number;
        state.waiting = waits as u8;
        return left;
    }
    let good = count_read(table_number::read(number), counts);
    *state = Standing::of_packed(state).after(edition, good).with_number(0, 0);
    left
}

/// Bits as one number, the last in place 0.
fn gathered(bits: &[u8]) -> u64 {
    let eights = bits.chunks_exact(8);
    let rest = eights.remainder();
    let number = eights.fold(0, |number, eight| number << 8 | eight_gathered(eight));
    rest.iter().fold(number, |number, &bit| number << 1 | u64::from(bit))
}

/// Eight bytes 0 or 1 as one: the product moves each to its place, and no two
/// of its sums meet.
fn eight_gathered(eight: &[u8]) -> u64 {
    let bytes = u64::from_le_bytes(eight.try_into().expect("eight bytes"));
    bytes.wrapping_mul(0x8040_2010_0804_0201) >> 56
}
