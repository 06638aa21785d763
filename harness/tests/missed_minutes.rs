//! The library's receiver where time blocks are lost: how the time stands after
//! every minute, beside the plain words of the rule, and how long a dial waits,
//! under both editions.

use std::ops::RangeInclusive;

use harness::compare::Receiver;
use harness::face::{Date, Record, State, CANDIDATE, CONFIRMED, NO_TIME};
use harness::feeds::{Mishap, Sender, MINUTE};
use harness::independent::receiver::{History, HELD};
use harness::independent::{bits_of, calendar, Edition, BLOCK, EDITIONS};
use harness::random::{report, Random};

/// What befalls each block of a minute.
type Mishaps = [Option<Mishap>; MINUTE];

/// The place of the time block among the blocks of a minute.
const LAST: usize = MINUTE - 1;

/// How a time block is lost.
const LOSSES: [Mishap; 3] = [Mishap::SingleError, Mishap::Filler, Mishap::Unusable];

/// Minutes of which every pattern is tried.
const MINUTES: usize = 8;

/// 28 December 1986, 23:56, in 1984. Half of the eight minutes are in the first
/// week of 1987.
const FIRST: Record =
    Record { leap: 2, start_day: 3, week: 52, weekday: 7, hour: 23, minute: 56, offset: 0 };

/// The bits received of a minute.
fn received(sender: &mut Sender, mishaps: Mishaps, random: &mut Random) -> Vec<u8> {
    let each = sender.minute(random).into_iter().zip(mishaps);
    each.flat_map(|(block, mishap)| match mishap {
        Some(mishap) => mishap.befalling(sender.edition, block, random),
        None => bits_of(block).to_vec(),
    })
    .collect()
}

/// A minute in which the time block alone may be lost.
fn losing(loss: Option<Mishap>) -> Mishaps {
    let mut mishaps = [None; MINUTE];
    mishaps[LAST] = loss;
    mishaps
}

/// How the time stands at the end of some minutes, if one is held, and how many
/// minutes ago it was told: by the words of the rule, for which it only matters
/// which time blocks came through and for how many minutes a time is held.
fn standing(came: &[bool], held: usize) -> Option<(u8, usize)> {
    let last = came.iter().rposition(|&came| came)?;
    let earlier = came[..last].iter().rposition(|&came| came);
    let confirmed = earlier.is_some_and(|earlier| last - earlier <= held);
    let ago = came.len() - 1 - last;
    (ago < held).then_some((if confirmed { CONFIRMED } else { CANDIDATE }, ago))
}

/// The state must hold what the time blocks that came through leave to it. These
/// are the records that they all tell.
fn must_stand(state: &State, came: &[bool], told: &[Record]) {
    let expected = match standing(came, HELD) {
        Some((time, ago)) => (time, told[came.len() - 1 - ago], ago * MINUTE),
        None => (NO_TIME, Record::default(), 0),
    };
    assert_eq!((state.time, state.record, state.age.into()), expected, "came through: {came:?}");
}

/// Which of the eight time blocks come through.
fn pattern(number: usize) -> [bool; MINUTES] {
    std::array::from_fn(|minute| number >> minute & 1 == 1)
}

/// What the eight time blocks tell.
fn told(edition: Edition) -> [Record; MINUTES] {
    let first = edition.telling(FIRST);
    std::array::from_fn(|minute| calendar::minutes_later(edition, first, minute).expect("a record"))
}

/// The transmitter that sends them.
fn sender(edition: Edition) -> Sender {
    Sender::of(edition, edition.telling(FIRST))
}

fn any_loss(random: &mut Random) -> Mishap {
    LOSSES[random.below(LOSSES.len())]
}

/// Time blocks come through or are lost so; gives how many bits there were.
fn must_stand_after_each_minute(
    edition: Edition,
    came: [bool; MINUTES],
    random: &mut Random,
    loss: impl Fn(&mut Random) -> Mishap,
) -> usize {
    let mut receiver = Receiver::fresh(edition);
    let mut sender = sender(edition);
    let mut count = 0;
    for minute in 0..MINUTES {
        let loss = loss(random);
        let mishaps = losing((!came[minute]).then_some(loss));
        for bit in received(&mut sender, mishaps, random) {
            receiver.feed(bit);
            count += 1;
        }
        must_stand(receiver.state(), &came[..=minute], &told(edition));
    }
    count
}

#[test]
fn every_pattern_of_eight_minutes() {
    let mut random = Random::named("patterns");
    let mut count = 0;
    for edition in EDITIONS {
        // All lost in one of the ways, and each in any of them.
        for way in 0..=LOSSES.len() {
            let loss =
                |random: &mut Random| LOSSES.get(way).copied().unwrap_or_else(|| any_loss(random));
            for came in (0..1 << MINUTES).map(pattern) {
                count += must_stand_after_each_minute(edition, came, &mut random, loss);
            }
        }
    }
    report("bits of every pattern of eight minutes, bit by bit", count);
}

#[test]
fn nothing_is_kept_across_a_lost_lock() {
    const COUNT: usize = 2_000;
    let mut random = Random::named("lost locks");
    for _ in 0..COUNT {
        for edition in EDITIONS {
            must_lose_the_lock(edition, &mut random);
        }
    }
    report("feeds of eight minutes that lose the lock", 2 * COUNT);
}

fn must_lose_the_lock(edition: Edition, random: &mut Random) {
    let came = pattern(random.below(1 << MINUTES));
    // Four bad blocks behind the first one of a minute.
    let lost = 1 + random.below(MINUTES - 1);
    let bad = 1 + random.below(MINUTE - 4);
    // The three that give lock again must all be before the time block.
    let mut offered = came;
    offered[lost] &= bad + 4 + 3 <= LAST;

    let mut receiver = Receiver::fresh(edition);
    let mut sender = sender(edition);
    for minute in 0..MINUTES {
        let mut mishaps = losing((!came[minute]).then(|| any_loss(random)));
        if minute == lost {
            mishaps[bad..bad + 4].fill(Some(Mishap::SingleError));
        }
        let bits = received(&mut sender, mishaps, random);
        let (before, behind) = bits.split_at((bad + 4) * BLOCK);
        receiver.run(before);
        assert_eq!(minute == lost, *receiver.state() == State::FRESH, "minute {minute}");
        receiver.run(behind);
        let start = if minute < lost { 0 } else { lost };
        must_stand(receiver.state(), &offered[start..=minute], &told(edition)[start..]);
    }
}

/// Minutes in a month.
const MONTH: usize = 30 * 24 * 60;

/// What a dial has of a receiver, at the end of each minute.
#[derive(Default)]
struct Dial {
    /// Whether the time is confirmed.
    confirmed: Vec<bool>,
    /// Whether this minute's time block confirmed it, and so sets the dial.
    set: Vec<bool>,
}

impl Dial {
    fn look_at(&mut self, state: &State) {
        let confirmed = state.time == CONFIRMED;
        self.confirmed.push(confirmed);
        self.set.push(confirmed && state.age == 0);
    }

    /// Where a minute did not set the dial and the one before it did, and how
    /// many minutes later one set it again.
    fn waits(&self) -> Vec<(usize, usize)> {
        let first = (1..MONTH).filter(|&minute| self.set[minute - 1] && !self.set[minute]);
        let wait = |minute| self.set[minute..].iter().position(|&set| set);
        first.filter_map(|minute| Some((minute, wait(minute)?))).collect()
    }

    fn figures(&self) -> Figures {
        let waits: Vec<usize> = self.waits().into_iter().map(|(_, wait)| wait).collect();
        let stretches = self.confirmed.split(|&confirmed| confirmed).map(<[bool]>::len);
        Figures {
            waits: waits.len(),
            average: waits.iter().sum::<usize>() as f64 / waits.len() as f64,
            longest: waits.into_iter().max().unwrap_or(0),
            unconfirmed: stretches.clone().sum(),
            in_a_row: stretches.max().unwrap_or(0),
        }
    }
}

/// How a dial fared in a month: how many waits there were, and how long they
/// were in minutes; in how many minutes nothing was confirmed.
#[derive(Debug)]
struct Figures {
    waits: usize,
    average: f64,
    longest: usize,
    unconfirmed: usize,
    in_a_row: usize,
}

impl Figures {
    fn show(&self, what: &str) {
        let Figures { waits, average, longest, unconfirmed, in_a_row } = self;
        println!(
            "{what}: {waits} waits for a time block that confirms, \
             {average:.2} minutes on average, {longest} at most"
        );
        println!(
            "{what}: nothing confirmed at the end of {unconfirmed} minutes of {MONTH}, \
             {in_a_row} in a row at most"
        );
    }

    fn must_lie_in(&self, average: f64, longest: Bounds, unconfirmed: Bounds) {
        assert!((self.average - average).abs() < 0.1, "about {average} on average: {self:?}");
        assert!(longest.contains(&self.longest), "{longest:?} at most: {self:?}");
        assert!(self.in_a_row <= *longest.end(), "{longest:?} in a row: {self:?}");
        assert!(unconfirmed.contains(&self.unconfirmed), "{unconfirmed:?} in all: {self:?}");
    }
}

type Bounds = RangeInclusive<usize>;

/// A month of losses, and what two dials have of it: that of a receiver which
/// holds a time for one minute, as before request No. 5, and the library's.
struct Month {
    came: Vec<bool>,
    before: Dial,
    after: Dial,
    lost_locks: usize,
}

impl Month {
    /// Both hear the same bits. The library is compared after every minute.
    fn with(edition: Edition, what: &str, mishaps: impl Fn(&mut Random) -> Mishaps) -> Self {
        let mut random = Random::named(what);
        let date = Date { year: 1986, month: 12, day: 15, ..Date::default() };
        let first = calendar::record_of_date(edition, date).expect("a record");
        let mut sender = Sender::of(edition, first);
        let mut history = History::holding_for(edition, 1);
        let mut receiver = Receiver::fresh(edition);
        let [before, after] = [Dial::default(), Dial::default()];
        let mut month = Month { came: Vec::new(), before, after, lost_locks: 0 };
        for _ in 0..MONTH {
            let mishaps = mishaps(&mut random);
            month.came.push(mishaps[LAST].is_none());
            let bits = received(&mut sender, mishaps, &mut random);
            for &bit in &bits {
                let locked = history.is_locked();
                history.hear(bit);
                month.lost_locks += usize::from(locked && !history.is_locked());
            }
            receiver.run(&bits);
            month.before.look_at(&history.state());
            month.after.look_at(receiver.state());
        }
        report(&format!("bits of a month, {what}, {edition:?}"), MONTH * MINUTE * BLOCK);
        month
    }

    /// How both dials fared, in their order, shown too. A time that is held for
    /// longer may never make it worse.
    fn figures(&self, what: &str) -> [Figures; 2] {
        let [before, after] = [&self.before, &self.after];
        for minute in 0..MONTH {
            assert!(before.set[minute] <= after.set[minute], "minute {minute}");
            assert!(before.confirmed[minute] <= after.confirmed[minute], "minute {minute}");
        }
        let figures = [before.figures(), after.figures()];
        println!("{what}: lock lost {} times in a month", self.lost_locks);
        figures[0].show(&format!("{what}, before (time held for 1 minute)"));
        figures[1].show(&format!("{what}, after (time held for {HELD} minutes)"));
        figures
    }
}

/// How many minutes pass on average until two time blocks come in a row, and
/// until one comes, where nine in ten come.
const UNTIL_TWO: f64 = 1.9 / 0.81;
const UNTIL_ONE: f64 = 1.0 / 0.9;

fn one_in_ten(random: &mut Random) -> Option<Mishap> {
    (random.below(10) == 0).then_some(Mishap::SingleError)
}

#[test]
fn a_month_with_one_time_block_in_ten_damaged() {
    let what = "one time block in ten damaged";
    for edition in EDITIONS {
        let month = Month::with(edition, what, |random| losing(one_in_ten(random)));
        assert_eq!(month.lost_locks, 0);
        for (dial, held, single) in [(&month.before, 1, 2), (&month.after, HELD, 1)] {
            must_follow_the_rule(dial, &month.came, held);
            let mut waits = dial.waits();
            waits.retain(|&(first, _)| month.came[first..].starts_with(&[false, true, true]));
            assert!(waits.len() > 2_000, "{} single losses", waits.len());
            assert!(waits.iter().all(|&(_, wait)| wait == single), "single losses: {waits:?}");
        }
        let [before, after] = month.figures(&format!("{what}, {edition:?}"));
        before.must_lie_in(UNTIL_TWO, 5..=40, 7_000..=9_500);
        after.must_lie_in(UNTIL_ONE, 3..=20, 1..=100);
    }
}

/// A dial must stand after each minute as these time blocks leave it.
fn must_follow_the_rule(dial: &Dial, came: &[bool], held: usize) {
    for minute in 0..MONTH {
        let (time, ago) = standing(&came[..=minute], held).unwrap_or((NO_TIME, 0));
        let confirmed = time == CONFIRMED;
        assert_eq!(dial.confirmed[minute], confirmed, "minute {minute}, {held} held");
        assert_eq!(dial.set[minute], confirmed && ago == 0, "minute {minute}, {held} held");
    }
}

#[test]
fn a_month_with_one_block_in_ten_damaged() {
    let what = "one block in ten damaged";
    for edition in EDITIONS {
        let month = Month::with(edition, what, |random| [(); MINUTE].map(|()| one_in_ten(random)));
        // About nine blocks in 100,000 are good ones with four bad ones behind them.
        assert!((60..=200).contains(&month.lost_locks), "{} locks lost", month.lost_locks);
        let [before, after] = month.figures(&format!("{what}, {edition:?}"));
        before.must_lie_in(UNTIL_TWO, 5..=40, 7_000..=9_500);
        after.must_lie_in(UNTIL_ONE, 3..=20, 60..=500);
    }
}
