//! Journals as customers keep them: entries that are wanted, whatever stands before
//! and behind these, and a trailer.

use std::collections::BTreeSet;

use crate::independent::journal::{bytes_of, Entry, ENTRY};
use crate::independent::packed::LARGEST;
use crate::independent::{block, BLOCK, PREFIX};
use crate::random::Random;

/// A journal. Before and behind the wanted entries stand whole entries' bytes.
#[derive(Clone, Debug, Default)]
pub struct Journal {
    pub before: Vec<u8>,
    pub wanted: Vec<Entry>,
    pub behind: Vec<u8>,
}

impl Journal {
    /// One in which all is wanted.
    pub fn of(wanted: &[Entry]) -> Self {
        Journal { wanted: wanted.to_vec(), ..Journal::default() }
    }

    /// So many sound entries with up to four entries' bytes of anything before them
    /// and behind them.
    pub fn with_gaps(random: &mut Random, wanted: usize) -> Self {
        let [before, behind] = [(); 2].map(|()| random.below(5));
        Journal {
            before: anything(random, before),
            wanted: sound_entries(random, wanted),
            behind: anything(random, behind),
        }
    }

    /// Its bytes.
    pub fn bytes(&self) -> Vec<u8> {
        self.ending_in((self.before.len() as u64, self.wanted.len() as u64))
    }

    /// Its bytes with this trailer instead of its own.
    pub fn ending_in(&self, trailer: Entry) -> Vec<u8> {
        [&self.before[..], &bytes_of(&self.wanted), &self.behind, &bytes_of(&[trailer])].concat()
    }
}

/// So many entries' bytes: random ones, all the same, or sound entries.
pub fn anything(random: &mut Random, entries: usize) -> Vec<u8> {
    let bytes = |random: &mut Random| (0..entries * ENTRY).map(|_| random.number() as u8).collect();
    match random.below(4) {
        0 => vec![0; entries * ENTRY],
        1 => vec![0xFF; entries * ENTRY],
        2 => bytes_of(&sound_entries(random, entries)),
        _ => bytes(random),
    }
}

/// So many entries with blocks of any kind and bit numbers that rise.
pub fn sound_entries(random: &mut Random, count: usize) -> Vec<Entry> {
    rising(random, count).into_iter().map(|number| (number, any_block(random))).collect()
}

/// So many bit numbers: one for each block of a feed, the least or the largest that
/// there are, or anything.
fn rising(random: &mut Random, count: usize) -> Vec<u64> {
    let all = count as u64;
    match random.below(4) {
        0 => (1..=all).map(|place| place * BLOCK as u64).collect(),
        1 => (0..all).collect(),
        2 => (0..all).rev().map(|place| u64::MAX - place).collect(),
        _ => {
            let mut numbers = BTreeSet::new();
            while numbers.len() < count {
                numbers.insert(random.number() >> random.below(32));
            }
            numbers.into_iter().collect()
        }
    }
}

/// Fifty bits: a filler of either edition, another good block, one with some changes,
/// one with a wrong prefix, or random bits.
pub fn any_block(random: &mut Random) -> u64 {
    let good = random.block();
    match random.below(8) {
        0 => block(0, random.number() as u32 | 1 << 31),
        1 => block(0, random.number() as u32 >> 6),
        2 => {
            let places = 1 + random.below(8);
            good ^ random.change(places)
        }
        3 => good ^ PREFIX,
        4 => random.number() & LARGEST,
        _ => good,
    }
}
