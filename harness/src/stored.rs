//! Fifty feeds as files of characters, and how the time stands at the end of each.
//! Most are stories, so that this is known by how they are made; of the others the
//! list of what happened tells it. The product has no part in them.

use crate::feeds::{bits_of_all, plain, time_block, troubled, MINUTE, MISHAPS};
use crate::independent::watch::{after_input, Why};
use crate::independent::{bits_of, block, Edition, BLOCK};
use crate::random::Random;
use crate::stories::{Story, LAST_AGE};

/// The file that lists the others.
pub const LIST: &str = "list.txt";

/// A feed, what the program is told of it, and what it must say.
pub struct Stored {
    pub edition: Edition,
    /// Whether the program is told the edition; else it must take that of 1984.
    pub told: bool,
    pub text: Vec<u8>,
    pub why: Why,
}

impl Stored {
    /// What the list says of the feed with this number: the file, the edition or a
    /// dash, the line.
    fn entry(&self, number: usize) -> String {
        let edition = if self.told { self.edition.number().to_string() } else { "-".into() };
        format!("{} {edition} {}\n", file(number), self.why.line())
    }
}

/// The name of the file with this number.
pub fn file(number: usize) -> String {
    format!("{number:02}.txt")
}

/// What the list says of all.
pub fn list(all: &[Stored]) -> String {
    (1..).zip(all).map(|(number, stored)| stored.entry(number)).collect()
}

/// A text, and how the time stands at its end.
type Made = (Vec<u8>, Why);

/// All fifty, in the order of their numbers.
pub fn all() -> Vec<Stored> {
    let of_1984 = Edition::Of1984;
    let of_both = |edition| stories(edition).into_iter().chain(damaged(edition));
    let alone = texts(of_1984).into_iter().chain(of_both(of_1984)).enumerate();
    // Every other one leaves the edition to the program.
    let first = alone.map(|(place, made)| stored(of_1984, place % 2 == 1, made));
    let second = of_both(Edition::Of1982).map(|made| stored(Edition::Of1982, true, made));
    first.chain(second).collect()
}

fn stored(edition: Edition, told: bool, (text, why): Made) -> Stored {
    Stored { edition, told, text, why }
}

/// Bits as characters, so many to a line.
pub fn in_lines(bits: &[u8], length: usize) -> Vec<u8> {
    let line = |bits: &[u8]| bits.iter().map(|bit| b'0' + bit).chain([b'\n']).collect::<Vec<u8>>();
    bits.chunks(length).flat_map(line).collect()
}

/// The story as a text of blocks, one to a line.
fn in_blocks(story: &Story) -> Made {
    (in_lines(&story.bits, BLOCK), story.end())
}

/// The same with this behind it, which is no input any more.
fn ended_by(story: &Story, rest: &[u8]) -> Made {
    let (text, why) = in_blocks(story);
    ([&text, rest].concat(), why)
}

/// Inputs that end early, end nowhere or are long.
fn texts(edition: Edition) -> [Made; 8] {
    let start = || Story::of(edition);
    let locked = start().lock();
    let confirmed = locked.clone().begin(0).miss(MINUTE - 1).confirm(1);
    let lines = in_blocks(&locked).0;
    let carriage_returns = String::from_utf8_lossy(&lines).replace('\n', "\r\n");
    let bad = in_lines(&bits_of_all(&confirmed.four_bad()), BLOCK);
    let long = locked.clone().miss(1_320).begin(0).miss(MINUTE - 1).confirm(1);
    [
        (Vec::new(), Why::NeverLocked),
        ([b"x\n", &lines[..]].concat(), Why::NeverLocked),
        (carriage_returns.into_bytes(), Why::NeverLocked),
        // Behind the letter lock would be lost.
        ended_by(&confirmed, &[b"q", &bad[..]].concat()),
        // Held for as long as there is, in one line that has no end.
        (confirmed.miss(LAST_AGE - 1).characters(), Why::Confirmed),
        in_blocks(&a_bit_left_out(start())),
        // More than the longest run.
        in_blocks(&long.miss(MINUTE - 1).displace(4).miss(1)),
        heard(edition, Random::fixed().bits(4_000)),
    ]
}

/// One bit of a block never comes: from there on four windows are bad, and lock is
/// lost with the first bit of the fourth block behind.
fn a_bit_left_out(story: Story) -> Story {
    let filler = story.filler();
    let story = story.lock().begin(0).miss(5);
    let mut left = bits_of(filler).to_vec();
    left.remove(20);
    let late = [&left[..], &bits_of(filler).repeat(3), &bits_of(filler)[..1]].concat();
    story.turn_with(&late, Why::LockLost).hear(&bits_of(filler)[1..]).miss(1)
}

/// Stories that end in each of the seven ways, some in more than one.
fn stories(edition: Edition) -> Vec<Made> {
    let start = || Story::of(edition);
    let locked = || start().zeros(13).lock();
    let held = || locked().begin(0);
    let confirmed = || held().miss(MINUTE - 1).confirm(1);
    let dropped = || held().drop_after(LAST_AGE);
    let lost_at_last_age = held().miss(LAST_AGE - 4).lose();
    let mut made: Vec<Made> = [
        start().zeros(31).nearly_lock(),
        start().lock(),
        with_nothing_usable(start()),
        held(),
        held().miss(LAST_AGE - 1),
        dropped().miss(2),
        dropped().begin(5).miss(1),
        dropped().begin(5).drop_after(LAST_AGE),
        dropped().lose().zeros(8).lock().miss(1),
        confirmed(),
        held().miss(LAST_AGE - 1).confirm(4).miss(3),
        held().miss(MINUTE - 1).displace(2).miss(4),
        // The right minute, but a block was left out before it.
        held().miss(MINUTE - 2).displace(1).miss(2),
        confirmed().miss(3).displace(7).miss(1).displace(9).miss(2),
        held().displace(3).miss(MINUTE - 1).confirm(4).miss(1),
        confirmed().lose().zeros(17).nearly_lock(),
        locked().lose().zeros(1).lock().miss(2).lose().lock().begin(0).lose().zeros(99),
        lost_at_last_age.clone().zeros(60),
    ]
    .iter()
    .map(in_blocks)
    .collect();
    // Short lines, and some with nothing in them.
    let again = lost_at_last_age.zeros(20).lock().miss(2);
    made.push((in_lines(&again.bits, 7), again.end()));
    made.last_mut().expect("the last one").0.extend(b"\n\n");
    made
}

/// Time blocks that give lock, and then nothing that can be used.
fn with_nothing_usable(story: Story) -> Story {
    let told = [0, 1, 2].map(|minutes| time_block(story.told(minutes)));
    let (filler, bad) = (story.filler(), story.four_bad());
    let story = story.turn(&told, |_| Why::NoUsableBlock).blocks(&bad[..3]);
    // Minute 60 and another service.
    let late = block(0, 0x4C16_CF02);
    story.blocks(&[filler, late, block(7, 0x4C16_C882)]).blocks(&bad[1..]).miss(1)
}

/// A feed with mishaps, and a tape of the other edition over the end of a year. What
/// becomes of these is looked up in the list of what happened.
fn damaged(edition: Edition) -> [Made; 2] {
    let any = |random: &mut Random| MISHAPS[random.below(MISHAPS.len())];
    let every = match edition {
        Edition::Of1984 => 20,
        Edition::Of1982 => 8,
    };
    let bits = troubled(edition, &mut Random::fixed(), 6, every, any);
    let other = edition.other();
    let tape = plain(other, Story::of(other).told(0), 3).into_bytes();
    let why = after_input(edition, &tape);
    [heard(edition, bits), (tape, why)]
}

fn heard(edition: Edition, bits: Vec<u8>) -> Made {
    let text = in_lines(&bits, BLOCK);
    let why = after_input(edition, &text);
    (text, why)
}
