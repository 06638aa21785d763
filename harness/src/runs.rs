//! Undamaged runs: blocks sent back to back, and what is heard of them from some
//! place of the first one on.

use crate::feeds::{bits_of_all, empty_filler, Sender, MINUTE};
use crate::independent::{read, Edition, BLOCK};
use crate::random::Random;
use crate::slips;

/// Blocks of a run, enough for lock where it is late again and again.
pub const BLOCKS: usize = 30;

/// What is sent in a run.
#[derive(Clone, Copy)]
pub enum Sent {
    /// Any code and word in each block.
    AnyMessages,
    /// Two messages in any order.
    TwoMessages,
    EmptyFillers,
    /// Fillers, other codes and time blocks, as a transmitter sends them.
    Minutes,
}

pub const ALL_SENT: [Sent; 4] =
    [Sent::AnyMessages, Sent::TwoMessages, Sent::EmptyFillers, Sent::Minutes];

impl Sent {
    pub fn blocks(self, edition: Edition, random: &mut Random) -> Vec<u64> {
        match self {
            Sent::AnyMessages => [(); BLOCKS].map(|()| random.block()).to_vec(),
            Sent::TwoMessages => {
                let two = [random.block(), random.block()];
                [(); BLOCKS].map(|()| two[random.below(2)]).to_vec()
            }
            Sent::EmptyFillers => vec![empty_filler(edition); BLOCKS],
            Sent::Minutes => {
                let mut sender = Sender::any(edition, random);
                let minutes = [sender.minute(random), sender.minute(random)].concat();
                minutes[random.below(MINUTE)..][..BLOCKS].to_vec()
            }
        }
    }
}

/// Bits that are heard before the first whole block.
pub fn before_whole(missed: usize) -> usize {
    (BLOCK - missed) % BLOCK
}

/// The bit with which lock is promised to a fresh state: the last of the third
/// whole block.
pub fn promised(missed: usize) -> usize {
    before_whole(missed) + 3 * BLOCK
}

/// What is heard of a run of which the first bits are missed.
pub struct Heard {
    pub missed: usize,
    pub bits: Vec<u8>,
}

impl Heard {
    pub fn of(blocks: &[u64], missed: usize) -> Self {
        Heard { missed, bits: bits_of_all(blocks).split_off(missed) }
    }

    /// The place in its block of the bit that comes when so many are heard.
    pub fn place_after(&self, count: usize) -> usize {
        (self.missed + count) % BLOCK
    }

    /// Whether the window that starts there is good.
    fn is_good_after(&self, count: usize) -> bool {
        read(&self.bits[count..][..BLOCK]).is_ok()
    }

    /// The proviso: no window in the first so many bits is good, but whole blocks.
    pub fn has_the_proviso(&self, count: usize) -> bool {
        let mut slipped = (0..=count - BLOCK).filter(|&start| self.place_after(start) != 0);
        !slipped.any(|start| self.is_good_after(start))
    }

    /// What is needed of the proviso: no window is good that starts before the
    /// first whole block and where messages can make one good at all.
    pub fn first_good_is_whole(&self) -> bool {
        let can_be_good = |start: &usize| !slips::REFUSED.contains(&self.place_after(*start));
        let mut before = (0..before_whole(self.missed)).filter(can_be_good);
        !before.any(|start| self.is_good_after(start))
    }
}
