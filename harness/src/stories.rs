//! Feeds of which it is known by how they are made, and without a receiver, how
//! the time stands after every bit.

use crate::face::Record;
use crate::feeds::{bits_of_all, empty_filler, time_block};
use crate::independent::watch::Why;
use crate::independent::{bits_of, calendar, Edition, BLOCK, PREFIX};

/// The last age of a time, in blocks: three missed minutes and the fourth one.
pub const LAST_AGE: usize = 120;

/// 28 December 1986, 23:58, in 1984. The next day is in the first week of 1987.
const FIRST: Record =
    Record { leap: 2, start_day: 3, week: 52, weekday: 7, hour: 23, minute: 58, offset: 0 };

/// A feed, and from which bits on the time stands otherwise than before.
#[derive(Clone)]
pub struct Story {
    pub edition: Edition,
    pub bits: Vec<u8>,
    turns: Vec<(usize, Why)>,
}

impl Story {
    /// Nothing is heard yet.
    pub fn of(edition: Edition) -> Self {
        Story { edition, bits: Vec::new(), turns: vec![(0, Why::NeverLocked)] }
    }

    /// A filler with nothing else set.
    pub fn filler(&self) -> u64 {
        empty_filler(self.edition)
    }

    /// Four bad blocks, refused in both ways.
    pub fn four_bad(&self) -> [u64; 4] {
        let filler = self.filler();
        [filler ^ 1, filler ^ PREFIX, filler ^ 1 << 20, filler ^ PREFIX ^ 2]
    }

    /// What a time block tells so many minutes after the first one of the story.
    pub fn told(&self, minutes: usize) -> Record {
        let first = self.edition.telling(FIRST);
        calendar::minutes_later(self.edition, first, minutes).expect("minutes to come")
    }

    /// Bits that change nothing.
    pub fn hear(mut self, bits: &[u8]) -> Self {
        self.bits.extend(bits);
        self
    }

    /// Zeros, which change nothing where no lock is.
    pub fn zeros(self, count: usize) -> Self {
        self.hear(&vec![0; count])
    }

    /// Blocks that change nothing.
    pub fn blocks(self, blocks: &[u64]) -> Self {
        self.hear(&bits_of_all(blocks))
    }

    /// Fillers, which change nothing but the age of a time.
    pub fn miss(self, count: usize) -> Self {
        let filler = self.filler();
        self.blocks(&vec![filler; count])
    }

    /// Blocks with whose last bit the time comes to stand so.
    pub fn turn(self, blocks: &[u64], why: impl Fn(u64) -> Why) -> Self {
        self.turn_with(&bits_of_all(blocks), why)
    }

    /// The same with bits that need not be whole blocks.
    pub fn turn_with(self, bits: &[u8], why: impl Fn(u64) -> Why) -> Self {
        let mut story = self.hear(bits);
        let heard = story.bits.len();
        story.turns.push((heard, why(heard as u64)));
        story
    }

    /// Where no lock is, two good blocks and a bad one, and then all of three good
    /// blocks but the last bit.
    pub fn nearly_lock(self) -> Self {
        let filler = self.filler();
        let story = self.blocks(&[filler, filler, filler ^ 1]).zeros(7);
        story.blocks(&[filler; 2]).hear(&bits_of(filler)[..BLOCK - 1])
    }

    /// Three good blocks where no lock was.
    pub fn lock(self) -> Self {
        let filler = self.filler();
        self.turn(&[filler; 3], |_| Why::NoUsableBlock)
    }

    /// Four bad blocks where lock was and the last block was good.
    pub fn lose(self) -> Self {
        let bad = self.four_bad();
        self.turn(&bad, Why::LockLost)
    }

    /// Fillers, at the last of which the held time is at its last age.
    pub fn drop_after(self, count: usize) -> Self {
        let filler = self.filler();
        self.turn(&vec![filler; count], Why::BlockMissing)
    }

    /// A time block where lock is and nothing is held.
    pub fn begin(self, minutes: usize) -> Self {
        let block = time_block(self.told(minutes));
        self.turn(&[block], |_| Why::TooYoung)
    }

    /// A time block that is the held record's, 1 to 4 whole minutes later.
    pub fn confirm(self, minutes: usize) -> Self {
        let block = time_block(self.told(minutes));
        self.turn(&[block], |_| Why::Confirmed)
    }

    /// Any other time block where a record is held.
    pub fn displace(self, minutes: usize) -> Self {
        let block = time_block(self.told(minutes));
        self.turn(&[block], Why::NotNextMinute)
    }

    /// Its bits as characters, in one line without an end.
    pub fn characters(&self) -> Vec<u8> {
        self.bits.iter().map(|bit| b'0' + bit).collect()
    }

    /// How the time stands at the end.
    pub fn end(&self) -> Why {
        self.turns.last().expect("there is always a turn").1
    }

    /// How it stands before the first bit and after each one.
    pub fn standings(&self) -> impl Iterator<Item = Why> + '_ {
        let ends = self.turns[1..].iter().map(|turn| turn.0).chain([self.bits.len() + 1]);
        self.turns.iter().zip(ends).flat_map(|(&(start, why), end)| (start..end).map(move |_| why))
    }
}
