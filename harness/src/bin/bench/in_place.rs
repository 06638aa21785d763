//! The receiver by hand, faster: hunting carries the remainder of the window
//! from bit to bit, and a whole block is read where it stands in the caller's
//! slice. The state's fifty places are filled only with what is left over.

use harness::face::{Counts, State, HUNTING};
use harness::independent::receiver::is_proper;
use harness::independent::{bits_of, remainder, Edition, BLOCK, GENERATOR, PREFIX};
use harness::refusals::NOT_A_BIT;

use crate::standing::admitted;
use crate::stepwise::take;
use crate::table;

/// What the remainder of a good window is: that of its prefix alone.
const GOOD: u64 = remainder(PREFIX);

/// What a bit that leaves the window takes with it.
const LEAVING: u64 = remainder(PREFIX << 1);

pub fn run(edition: u16, state: &mut State, bits: &[u8]) -> Counts {
    let edition = match admitted(edition, state, bits, is_proper) {
        Ok(edition) => edition,
        Err(refused) => return refused,
    };
    let mut counts = Counts::default();
    let mut left = bits;
    if bits.iter().fold(0, |all, bit| all | bit) > 1 {
        let end = bits.iter().position(|&bit| bit > 1).unwrap_or(bits.len());
        left = &bits[..end];
        counts.refusal = NOT_A_BIT;
    }
    while !left.is_empty() {
        left = match state.mode {
            HUNTING => hunt(edition, state, left, &mut counts),
            _ => take_block(edition, state, left, &mut counts),
        };
    }
    counts.waiting = state.waiting.into();
    counts
}

/// Goes on hunting up to a good window, and gives what is left behind it.
fn hunt<'a>(edition: Edition, state: &mut State, bits: &'a [u8], counts: &mut Counts) -> &'a [u8] {
    let mut waiting = usize::from(state.waiting);
    let mut window = state.bits[..waiting].iter().fold(0, |all, &bit| all << 1 | u64::from(bit));
    let mut fault = remainder(window);
    for (place, &bit) in bits.iter().enumerate() {
        // The fifty-first bit back leaves; before that many came it is 0.
        let leaving = window >> (BLOCK - 1) & 1;
        window = (window << 1 | u64::from(bit)) & (PREFIX * 2 - 1);
        fault = fault << 1 ^ u64::from(bit) ^ (leaving * LEAVING);
        fault ^= (fault >> 13) * GENERATOR;
        waiting += 1;
        if waiting < BLOCK {
            continue;
        }
        if fault == GOOD && window & PREFIX != 0 {
            take(edition, state, table::read(&bits_of(window)), counts);
            return &bits[place + 1..];
        }
        waiting -= 1;
        counts.passed += 1;
    }
    state.waiting = waiting as u8;
    for (place, bit) in state.bits[..waiting].iter_mut().rev().enumerate() {
        *bit = (window >> place & 1) as u8;
    }
    &[]
}

/// Fills up one block, if there are bits enough, and gives what is left.
fn take_block<'a>(
    edition: Edition,
    state: &mut State,
    bits: &'a [u8],
    counts: &mut Counts,
) -> &'a [u8] {
    let waiting = usize::from(state.waiting);
    let (part, left) = bits.split_at((BLOCK - waiting).min(bits.len()));
    if part.len() == BLOCK {
        take(edition, state, table::read(part), counts);
        return left;
    }
    state.bits[waiting..][..part.len()].copy_from_slice(part);
    state.waiting += part.len() as u8;
    if usize::from(state.waiting) == BLOCK {
        let read = table::read(&state.bits);
        take(edition, state, read, counts);
    }
    left
}
