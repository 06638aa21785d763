//! Feeds as they are sent under an edition, thirty blocks a minute with the time
//! block last, and what can befall them on the way.

pub use crate::independent::receiver::MINUTE;

use crate::face::Record;
use crate::independent::{bits_of, block, calendar, record, Edition, BLOCK};
use crate::random::Random;
use crate::refusals::NOT_A_RECORD;

/// Bits that a transmitter sends in a second.
pub const RATE: usize = 25;

/// The time block of a record whose fields are in range.
pub fn time_block(record: Record) -> u64 {
    block(0, record::write(record).expect("fields in range"))
}

/// The bits of blocks sent one after the other.
pub fn bits_of_all(blocks: &[u64]) -> Vec<u8> {
    blocks.iter().flat_map(|&sent| bits_of(sent)).collect()
}

/// The filler with nothing set but what makes it one.
pub fn empty_filler(edition: Edition) -> u64 {
    block(0, filler_word(edition, 0))
}

/// A filler whose undefined bits are these, as far as it has room for them: code
/// 0 and a set first bit, or six bits 0.
fn filler_word(edition: Edition, undefined: u32) -> u32 {
    match edition {
        Edition::Of1984 => undefined | 1 << 31,
        Edition::Of1982 => undefined >> 6,
    }
}

fn filler(edition: Edition, random: &mut Random) -> u64 {
    block(0, filler_word(edition, random.number() as u32))
}

/// A block of another service.
fn other_code(random: &mut Random) -> u64 {
    block(random.between(1, 15), random.number() as u32)
}

/// A transmitter; its next time block tells this minute.
pub struct Sender {
    pub edition: Edition,
    pub next: Record,
}

impl Sender {
    pub fn of(edition: Edition, next: Record) -> Self {
        Sender { edition, next }
    }

    /// One that begins with any minute there is.
    pub fn any(edition: Edition, random: &mut Random) -> Self {
        Sender::of(edition, random.usable_record(edition))
    }

    /// The blocks of one minute.
    pub fn minute(&mut self, random: &mut Random) -> [u64; MINUTE] {
        let told = self.next;
        self.next = calendar::next_minute(self.edition, told).expect("a usable record");
        std::array::from_fn(|place| match random.below(4) {
            _ if place == MINUTE - 1 => time_block(told),
            0 => other_code(random),
            _ => filler(self.edition, random),
        })
    }

    /// The bits of some minutes.
    pub fn minutes(&mut self, random: &mut Random, count: usize) -> Vec<u8> {
        (0..count).flat_map(|_| bits_of_all(&self.minute(random))).collect()
    }
}

/// A feed as the test generator sends it: empty fillers, a minute to a line, as
/// characters.
pub fn plain(edition: Edition, first: Record, minutes: usize) -> String {
    let mut text = String::new();
    let mut told = first;
    for _ in 0..minutes {
        let mut sent = [empty_filler(edition); MINUTE];
        sent[MINUTE - 1] = time_block(told);
        text.extend(bits_of_all(&sent).iter().map(|&bit| char::from(b'0' + bit)));
        text.push('\n');
        told = calendar::next_minute(edition, told).expect("a usable record");
    }
    text
}

/// Bits as characters with newlines among them, one before every so many bits and some
/// anywhere.
pub fn with_newlines(bits: &[u8], often: usize, random: &mut Random) -> Vec<u8> {
    let mut text = Vec::new();
    for (place, bit) in bits.iter().enumerate() {
        if place % often == often - 1 || random.below(often * 10) == 0 {
            text.push(b'\n');
        }
        text.push(b'0' + bit);
    }
    text
}

/// What can befall a block of a feed.
#[derive(Clone, Copy, Debug, PartialEq)]
pub enum Mishap {
    SingleError,
    Burst,
    Missing,
    Repeated,
    LostBit,
    ExtraBit,
    Noise,
    Filler,
    OtherCode,
    OtherTime,
    Unusable,
    /// It breaks off, and what follows is another feed.
    OtherFeed,
}

pub const MISHAPS: [Mishap; 12] = [
    Mishap::SingleError,
    Mishap::Burst,
    Mishap::Missing,
    Mishap::Repeated,
    Mishap::LostBit,
    Mishap::ExtraBit,
    Mishap::Noise,
    Mishap::Filler,
    Mishap::OtherCode,
    Mishap::OtherTime,
    Mishap::Unusable,
    Mishap::OtherFeed,
];

impl Mishap {
    /// What is received where this block was sent.
    pub fn befalling(self, edition: Edition, sent: u64, random: &mut Random) -> Vec<u8> {
        let mut bits = bits_of(sent).to_vec();
        let place = random.below(BLOCK);
        match self {
            Mishap::SingleError => bits[place] ^= 1,
            Mishap::Burst => {
                let end = place + random.below(BLOCK - place + 1);
                bits[place..end].iter_mut().for_each(|bit| *bit ^= random.between(0, 1));
            }
            Mishap::Missing => bits.clear(),
            Mishap::Repeated => bits = bits.repeat(2 + random.below(6)),
            Mishap::LostBit => drop(bits.remove(place)),
            Mishap::ExtraBit => bits.insert(place, random.between(0, 1)),
            Mishap::Noise => bits = random.bits(4 * place),
            Mishap::Filler => bits = bits_of_all(&[filler(edition, random)]),
            Mishap::OtherCode => bits = bits_of_all(&[other_code(random)]),
            Mishap::OtherTime => bits = bits_of_all(&[time_block(random.usable_record(edition))]),
            Mishap::Unusable => bits = bits_of_all(&[unusable_time_block(edition, random)]),
            Mishap::OtherFeed => bits.truncate(place),
        }
        bits
    }
}

/// A time block with a field out of range or a week that is not in its year.
pub fn unusable_time_block(edition: Edition, random: &mut Random) -> u64 {
    loop {
        let word = random.number() as u32;
        let unusable = match record::read(edition, 0, word) {
            Ok(record) => !calendar::usable(edition, &record),
            Err(refusal) => refusal != NOT_A_RECORD,
        };
        if unusable {
            return block(0, word);
        }
    }
}

/// A feed of up to so many minutes, which begins in the middle of one. About
/// one block of `every` meets with a mishap that `choose` gives.
pub fn troubled(
    edition: Edition,
    random: &mut Random,
    minutes: usize,
    every: usize,
    choose: impl Fn(&mut Random) -> Mishap,
) -> Vec<u8> {
    let mut sender = Sender::any(edition, random);
    let mut feed = Vec::new();
    for _ in 0..minutes {
        for sent in sender.minute(random) {
            if random.below(every) != 0 {
                feed.extend(bits_of(sent));
                continue;
            }
            let mishap = choose(random);
            feed.extend(mishap.befalling(edition, sent, random));
            if mishap == Mishap::OtherFeed {
                sender = Sender::any(edition, random);
                break;
            }
        }
    }
    let missed = random.below(MINUTE * BLOCK).min(feed.len());
    feed.split_off(missed)
}
