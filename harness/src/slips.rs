//! Windows of fifty bits that do not start where a block starts.

use crate::independent::packed::fault;
use crate::independent::{block, BLOCK, PREFIX};
use crate::random::Random;

/// Starts, counted from a block's start, at which no messages make a window
/// good: one to seven bits after a start and one to six before the next.
pub const REFUSED: [usize; 13] = [1, 2, 3, 4, 5, 6, 7, 44, 45, 46, 47, 48, 49];

/// Code and word of two blocks sent back to back.
pub type Pair = [(u8, u32); 2];

/// Bits of two messages.
const PAIR: usize = 72;

/// The window that starts `slip` bits after the start of the first of two blocks.
pub fn window(pair: Pair, slip: usize) -> u64 {
    let [first, second] = pair.map(|(code, word)| u128::from(block(code, word)));
    let run = first << BLOCK | second;
    (run >> (BLOCK - slip)) as u64 & (PREFIX * 2 - 1)
}

/// Two blocks whose window at `slip` is a good block, if there are any.
pub fn good_window(slip: usize) -> Option<Pair> {
    mended(0, PAIR, |bits| window(pair_of(bits), slip)).map(pair_of)
}

/// A block that, sent twice, has a good window at `slip`, if there is any.
pub fn good_window_of_repeated(slip: usize) -> Option<(u8, u32)> {
    let twice = |bits| pair_of(bits << 36 | bits);
    mended(0, 36, |bits| window(twice(bits), slip)).map(|bits| twice(bits)[0])
}

/// Two blocks and the good block that their window at `slip` becomes when other
/// bits, so many, stand where its first ones were, if there are any. What need
/// not be so is random.
pub fn good_window_behind(waiting: usize, slip: usize, random: &mut Random) -> Option<(Pair, u64)> {
    let heard = BLOCK - waiting;
    let window_of = |bits: u128| {
        let other = (bits >> PAIR) as u64;
        other << heard | window(pair_of(bits), slip) & ((1 << heard) - 1)
    };
    let any = u128::from(random.number()) << 64 | u128::from(random.number());
    let all = PAIR + waiting;
    let bits = mended(any & ((1 << all) - 1), all, window_of)?;
    Some((pair_of(bits), window_of(bits)))
}

/// Bits of which the window is good, as near to `start` as elimination leaves
/// them. Each bit changes the fault of the window by an amount of its own, so that
/// elimination finds every fault that can be mended.
fn mended(start: u128, bits: usize, window_of: impl Fn(u128) -> u64) -> Option<u128> {
    let fault_of = |bits| fault(window_of(bits));
    let fixed = fault_of(0);
    let mut basis = Vec::new();
    for bit in (0..bits).map(|place| 1 << place) {
        let new = reduced(&basis, (fault_of(bit) ^ fixed, bit));
        if new.0 != 0 {
            basis.push(new);
        }
    }
    let (left, bits) = reduced(&basis, (fault_of(start), start));
    (left == 0).then_some(bits)
}

/// Two codes and words from 72 bits.
fn pair_of(bits: u128) -> Pair {
    [36, 0].map(|low| ((bits >> (low + 32) & 15) as u8, (bits >> low) as u32))
}

/// A fault and the bits that make it, less what the basis can take away.
fn reduced(basis: &[(u64, u128)], start: (u64, u128)) -> (u64, u128) {
    basis.iter().fold(start, |(fault, bits), (less, by)| {
        if fault ^ less < fault {
            (fault ^ less, bits ^ by)
        } else {
            (fault, bits)
        }
    })
}
