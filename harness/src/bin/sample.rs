//! Writes the sample feed: some minutes of blocks, one to a line, with most of
//! what a receiver can meet with.

use harness::face::Record;
use harness::feeds::{Sender, MINUTE};
use harness::independent::{bits_of, block, record, Edition, BLOCK};
use harness::random::Random;

const EDITION: Edition = Edition::Of1984;

/// Sent twice, this has a good window twelve bits after its start.
const REPEATED: (u8, u32) = (15, 0x8500_0000);

fn main() {
    let mut random = Random::fixed();

    // 1 January 1986, 12:34. The first bits are missed, and one bit arrives wrong.
    let first = record::read(EDITION, 0, 0x4C16_C882).expect("a record");
    let mut sender = Sender::of(EDITION, first);
    let mut feed = sender.minutes(&mut random, 3);
    feed[40 * BLOCK + 20] ^= 1;
    show(&feed[13..BLOCK]);
    show(&feed[BLOCK..]);

    // A bit is lost, and with it the lock.
    let feed = sender.minutes(&mut random, 2);
    show(&feed[..5 * BLOCK + 30]);
    show(&feed[5 * BLOCK + 31..6 * BLOCK]);
    show(&feed[6 * BLOCK..]);

    // Another service sends the same block again and again. Its first bit is
    // missed, so that the false window is met before the true one.
    let repeated = bits_of(block(REPEATED.0, REPEATED.1)).repeat(10);
    show(&repeated[1..BLOCK]);
    show(&repeated[BLOCK..]);

    // Another feed: 28 December 1986, 23:58, and the first week of 1987.
    let last = Record { week: 52, weekday: 7, hour: 23, minute: 58, offset: -2, ..first };
    let feed = Sender::of(EDITION, last).minutes(&mut random, 4);
    let (whole, broken) = feed.split_at(3 * MINUTE * BLOCK);
    show(whole);

    // It breaks off within a block; what comes behind another character is no
    // longer input.
    show(&broken[..23]);
    println!("x");
    show(&broken[23..BLOCK]);
}

/// Writes bits as characters, a block's length to a line.
fn show(bits: &[u8]) {
    for line in bits.chunks(BLOCK) {
        let text: String = line.iter().map(|&bit| char::from(b'0' + bit)).collect();
        println!("{text}");
    }
}
