//! The number that names the edition: what the library makes of any other, and
//! what the two editions make of the same days, words and feeds.

use std::collections::BTreeSet;

use harness::compare::{
    dating, going_on, improper, no_edition, reading_record, recording, writing_record, Receiver,
};
use harness::face::{Date, Record, State, CONFIRMED, LOCKED, NO_TIME};
use harness::feeds::{troubled, Sender, MINUTE, MISHAPS};
use harness::independent::calendar::{coded_year, days_with_record, FIRST_YEARS};
use harness::independent::receiver::is_proper;
use harness::independent::{Edition, BLOCK, EDITIONS};
use harness::random::{report, Random};
use harness::refusals::OUT_OF_RANGE;

/// Wednesday 1 January 1986, 00:00, in 1984.
const WORD: u32 = 0x4C16_0000;
const DATE: Date = Date { year: 1986, month: 1, day: 1, hour: 0, minute: 0, offset: 0 };
const RECORD: Record =
    Record { leap: 2, start_day: 3, week: 1, weekday: 3, hour: 0, minute: 0, offset: 0 };

/// Week 53 in a year without one, in either edition, and an hour that there is not.
const NO_WEEK: Record = Record { leap: 1, week: 53, ..RECORD };
const NO_HOUR: Record = Record { hour: 24, ..RECORD };

/// Every number that names no edition.
fn others() -> impl Iterator<Item = u16> {
    (0..=u16::MAX).filter(|number| ![1984, 1982].contains(number))
}

/// Whatever else is asked, right or wrong.
#[test]
fn every_other_number_is_refused_by_the_calls_about_records() {
    const REFUSED: Option<u8> = Some(OUT_OF_RANGE);
    for number in others() {
        for (code, word) in [(0, WORD), (0, 0), (0, 1 << 31), (1, WORD), (255, u32::MAX)] {
            assert_eq!(reading_record(number, code, word).err(), REFUSED);
        }
        for record in [RECORD, NO_WEEK, NO_HOUR] {
            assert_eq!(writing_record(number, record).err(), REFUSED);
            assert_eq!(going_on(number, record).err(), REFUSED);
            for first_year in [1901, 1970, 1900, 2073] {
                assert_eq!(dating(number, record, first_year).err(), REFUSED);
            }
        }
        for (year, month) in [(1986, 1), (1986, 13), (1899, 1), (1900, 1), (2101, 1)] {
            assert_eq!(recording(number, Date { year, month, ..DATE }).err(), REFUSED);
        }
    }
}

/// States of which two are proper and three are not.
fn states() -> [State; 5] {
    let locked = State { mode: LOCKED, ..State::FRESH };
    let holding = State { time: CONFIRMED, record: RECORD, age: 29, ..locked };
    let mut no_bit = locked;
    (no_bit.waiting, no_bit.bits[0]) = (1, 7);
    [
        State::FRESH,
        holding,
        State { record: NO_WEEK, ..holding },
        State { mode: 3, ..locked },
        no_bit,
    ]
}

/// Also a run that is too long, a bit that is none and a state that is not proper.
#[test]
fn every_other_number_is_refused_by_feeds_and_runs() {
    for number in others() {
        states().into_iter().for_each(|state| no_edition(number, state));
    }
}

/// One leap code for each of the other edition's, and the rest of a record stays.
#[test]
fn both_editions_tell_the_same_kinds_of_year() {
    let mut codes = BTreeSet::new();
    for day in days_with_record() {
        let [one, other] = EDITIONS.map(|edition| recording(edition, day).expect("a record"));
        assert_eq!(other, Record { leap: other.leap, ..one }, "{day:?}");
        codes.insert((one.leap, other.leap));
    }
    assert!(codes.into_iter().eq([(0, 3), (1, 2), (2, 0), (3, 1)]));
}

/// So the edition must be given: a record never tells its day in the other one.
#[test]
fn the_other_edition_tells_another_year() {
    for (edition, year) in [(Edition::Of1984, 1986), (Edition::Of1982, 1997)] {
        assert_eq!(dating(edition, RECORD, 1970), Ok(Date { year, ..DATE }));
    }
    for day in days_with_record() {
        let held = coded_year(day).clamp(*FIRST_YEARS.start(), *FIRST_YEARS.end());
        for edition in EDITIONS {
            let record = recording(edition, day).expect("a record");
            assert_eq!(dating(edition, record, held), Ok(day));
            assert_ne!(dating(edition.other(), record, held), Ok(day));
        }
    }
}

/// Feeds of both editions: an hour over the end of a leap year's week 53, which
/// the other edition does not have, and some with every kind of mishap.
fn feeds(random: &mut Random) -> [Vec<u8>; 2] {
    let any = |random: &mut Random| MISHAPS[random.below(MISHAPS.len())];
    let last_hour = Record { leap: 0, week: 53, weekday: 7, hour: 23, minute: 30, ..RECORD };
    EDITIONS.map(|edition| {
        let mut feed = Sender::of(edition, edition.telling(last_hour)).minutes(random, 60);
        feed.extend(troubled(edition, random, 600, 100, any));
        feed
    })
}

/// The state but for what it holds of the time.
fn without_time(state: &State) -> State {
    State { time: NO_TIME, record: Record::default(), age: 0, ..*state }
}

/// Blocks are found and counted alike, so that `receive` needs no edition.
#[test]
fn the_edition_changes_the_time_alone() {
    let mut differed = 0;
    for feed in feeds(&mut Random::named("time alone")) {
        let mut receivers = EDITIONS.map(Receiver::fresh);
        for piece in feed.chunks(BLOCK) {
            let [one, other] = receivers.each_mut().map(|receiver| receiver.run(piece));
            assert_eq!(one, other);
            let [one, other] = receivers.each_ref().map(Receiver::state);
            assert_eq!(without_time(one), without_time(other));
            differed += usize::from(one != other);
        }
    }
    // About half an hour of each feed, thirty blocks a minute.
    assert!(differed >= 2 * 28 * MINUTE, "the time differed after {differed} blocks");
}

/// Runs bits under an edition, if the state is proper there; else it is refused.
fn run_or_be_refused(edition: Edition, state: &mut State, bits: &[u8]) -> bool {
    let proper = is_proper(edition, state);
    if proper {
        let mut receiver = Receiver::going_on_from(edition, *state);
        receiver.run(bits);
        *state = *receiver.state();
    } else {
        improper(edition, *state);
    }
    proper
}

/// A state goes on under the edition of each call, whatever that of the last was.
#[test]
fn every_call_may_have_another_edition() {
    let mut random = Random::named("other editions");
    let mut held = [0; 3];
    let mut refused = 0;
    for feed in feeds(&mut random) {
        let mut state = State::FRESH;
        let mut left = &feed[..];
        while !left.is_empty() {
            let (piece, rest) = left.split_at((1 + random.below(3_000)).min(left.len()));
            if run_or_be_refused(EDITIONS[random.below(2)], &mut state, piece) {
                held[usize::from(state.time)] += 1;
                left = rest;
            } else {
                refused += 1;
            }
        }
    }
    let [_, candidate, confirmed] = held;
    assert!(candidate > 50 && confirmed > 50, "{held:?}");
    assert!(refused > 5, "{refused} refused");
    report("runs under either edition", held.iter().sum::<usize>() + refused);
}
