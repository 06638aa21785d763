//! Request No. 13 against the library: without lock no time, and how long a receiver
//! waits for a confirmed time in a feed with a time block each minute, from lock and
//! from a fresh state. `Receiver` compares every bit with the history, under both
//! editions.

use harness::compare::Receiver;
use harness::face::{Date, Record, State, CANDIDATE, CONFIRMED, LOCKED, NO_TIME};
use harness::feeds::{
    bits_of_all, time_block, troubled, unusable_time_block, Sender, MINUTE, MISHAPS, RATE,
};
use harness::independent::{bits_of, calendar, Edition, BLOCK, EDITIONS};
use harness::random::{report, Random};
use harness::runs::{promised, Heard};

/// Minutes with every third block damaged: the time blocks come as they should,
/// and lock never.
fn two_good_of_three(edition: Edition, random: &mut Random) -> Vec<u8> {
    let mut sender = Sender::any(edition, random);
    let mut blocks = [(); 3].map(|()| sender.minute(random)).concat();
    blocks.iter_mut().skip(1).step_by(3).for_each(|block| *block ^= random.change(1));
    bits_of_all(&blocks)
}

/// Time blocks with up to a hundred bits of noise between them.
fn scattered(edition: Edition, random: &mut Random) -> Vec<u8> {
    let mut bits = Vec::new();
    for _ in 0..60 {
        bits.extend(bits_of(time_block(random.usable_record(edition))));
        let noise = random.below(100);
        bits.extend(random.bits(noise));
    }
    bits
}

/// How many kinds of history there are.
const HISTORIES: usize = 6;

/// Histories in which lock is late or never comes: noise, a feed with many mishaps,
/// one with fewer, ones among zeros, and time blocks that give no lock.
fn histories(edition: Edition, random: &mut Random) -> [Vec<u8>; HISTORIES] {
    let any = |random: &mut Random| MISHAPS[random.below(MISHAPS.len())];
    [
        random.bits(4_000),
        troubled(edition, random, 4, 2, any),
        troubled(edition, random, 4, 8, any),
        (0..4_000).map(|_| u8::from(random.below(60) == 0)).collect(),
        scattered(edition, random),
        two_good_of_three(edition, random),
    ]
}

/// At no bit may a time be held without lock. Gives with which bits lock and a
/// confirmed time first came, if they did.
fn must_hold_no_time_without_lock(edition: Edition, bits: &[u8]) -> [Option<usize>; 2] {
    let mut receiver = Receiver::fresh(edition);
    let mut first = [None; 2];
    for (count, &bit) in (1..).zip(bits) {
        receiver.feed(bit);
        let State { mode, time, record, age, .. } = *receiver.state();
        if mode != LOCKED {
            assert_eq!((time, record, age), (NO_TIME, Record::default(), 0), "{count} heard");
        }
        for (first, came) in first.iter_mut().zip([mode == LOCKED, time == CONFIRMED]) {
            *first = first.or(came.then_some(count));
        }
    }
    first
}

#[test]
fn without_lock_no_time_is_held() {
    const COUNT: usize = 100;
    let mut random = Random::named("without lock");
    let (mut before, mut locked, mut confirmed) = (0, 0, 0);
    for edition in [EDITIONS; COUNT].concat() {
        let histories = histories(edition, &mut random);
        let came = histories.each_ref().map(|bits| must_hold_no_time_without_lock(edition, bits));
        assert_eq!(came.last(), Some(&[None; 2]), "two good blocks of three");
        for ([lock, time], bits) in came.into_iter().zip(histories) {
            // Behind lock the time takes 31 blocks at least.
            assert!(time.is_none_or(|time| lock.is_some_and(|lock| lock + 31 * BLOCK <= time)));
            before += lock.map_or(bits.len(), |lock| lock - 1);
            locked += usize::from(lock.is_some());
            confirmed += usize::from(time.is_some());
        }
    }
    let all = 2 * HISTORIES * COUNT;
    assert!(0 < confirmed && confirmed < locked && locked < all, "{confirmed}, {locked}, {all}");
    report("bits before the first lock, or without one", before);
    println!("histories: {all} in all, lock in {locked}, a confirmed time in {confirmed}");
}

/// Minutes to begin with: an ordinary one, and some before midnight at the end of
/// February, of a year and of a year's week 53.
const DATES: [Date; 5] = [
    Date { year: 1986, month: 1, day: 1, hour: 12, minute: 34, offset: 2 },
    Date { year: 2000, month: 2, day: 28, hour: 23, minute: 59, offset: 0 },
    Date { year: 1999, month: 12, day: 31, hour: 23, minute: 59, offset: -2 },
    Date { year: 1986, month: 12, day: 28, hour: 23, minute: 59, offset: 31 },
    Date { year: 1982, month: 1, day: 3, hour: 23, minute: 59, offset: -32 },
];

/// Behind lock come so many blocks, then a time block, and a minute later the
/// next. All others are good and not usable.
fn after_lock(mut sender: Sender, before: usize, random: &mut Random) -> Vec<u8> {
    let mut blocks = [sender.minute(random), sender.minute(random)].concat();
    for (place, sent) in (1..).zip(&mut blocks) {
        if place % MINUTE != 0 && random.below(4) == 0 {
            *sent = unusable_time_block(sender.edition, random);
        }
    }
    bits_of_all(&blocks[MINUTE - 1 - before..])
}

/// Gives the bit behind lock with which the time is confirmed.
fn must_be_confirmed_in_time(
    edition: Edition,
    first: Record,
    before: usize,
    random: &mut Random,
) -> usize {
    let mut receiver = Receiver::fresh(edition);
    receiver.run(&bits_of_all(&[(); 3].map(|()| random.block())));
    assert_eq!((receiver.state().mode, receiver.state().time), (LOCKED, NO_TIME));
    let bits = after_lock(Sender::of(edition, first), before, random);
    let expected = BLOCK * (before + 31);
    for (count, bit) in (1..).zip(bits) {
        receiver.feed(bit);
        let time = match count {
            _ if count < BLOCK * (before + 1) => NO_TIME,
            _ if count < expected => CANDIDATE,
            _ => CONFIRMED,
        };
        assert_eq!(receiver.state().time, time, "{before} blocks before, {count} bits");
    }
    assert_eq!(Ok(receiver.state().record), calendar::next_minute(edition, first));
    expected
}

#[test]
fn a_time_is_confirmed_within_two_minutes_of_lock() {
    let mut random = Random::named("from lock to time");
    let mut waits = Vec::new();
    for edition in EDITIONS {
        let record = |date| calendar::record_of_date(edition, date).expect("a record");
        for first in DATES.map(record).into_iter().chain([random.usable_record(edition)]) {
            waits.extend(
                (0..MINUTE)
                    .map(|before| must_be_confirmed_in_time(edition, first, before, &mut random)),
            );
        }
    }
    let (least, most) = (waits.iter().min(), waits.iter().max());
    assert_eq!((least, most), (Some(&1_550), Some(&3_000)));
    report("feeds from lock to a confirmed time", waits.len());
    println!(
        "from lock to a confirmed time: 1550 to 3000 bits, {} to {} seconds",
        1_550 / RATE,
        3_000 / RATE
    );
}

/// The bit with which the time is confirmed to a fresh state.
fn confirmed(edition: Edition, heard: &Heard) -> usize {
    let mut receiver = Receiver::fresh(edition);
    let confirms = |&bit: &u8| {
        receiver.feed(bit);
        receiver.state().time == CONFIRMED
    };
    1 + heard.bits.iter().position(confirms).expect("a confirmed time")
}

/// Minutes heard from some bits of a block on, with the last block of each minute
/// the time block: behind lock it is on to the next one, and then a minute more.
fn waits_from(edition: Edition, first: usize, random: &mut Random) -> Vec<usize> {
    let mut sender = Sender::any(edition, random);
    let blocks = [(); 4].map(|()| sender.minute(random)).concat();
    let heard = [0, 1, random.below(BLOCK)].map(|missed| Heard::of(&blocks[first..], missed));
    let wait = |heard: &Heard| {
        let locked = first + usize::from(heard.missed > 0) + 3;
        let before = (2 * MINUTE - 1 - locked) % MINUTE;
        let wait = promised(heard.missed) + BLOCK * (before + 31);
        assert_eq!(confirmed(edition, heard), wait, "block {first}, {} missed", heard.missed);
        wait
    };
    heard.iter().filter(|heard| heard.first_good_is_whole()).map(wait).collect()
}

#[test]
fn a_dial_shows_time_within_3199_bits() {
    let mut random = Random::named("from a fresh state to time");
    let mut waits = Vec::new();
    for edition in EDITIONS {
        waits.extend((0..MINUTE).flat_map(|first| waits_from(edition, first, &mut random)));
    }
    assert_eq!(waits.iter().max(), Some(&3_199));
    report("feeds from a fresh state to a confirmed time", waits.len());
    println!("from a fresh state to a confirmed time: 3199 bits at most, 128 seconds");
}
