//! The library's receiver from given states: proper ones that go on, others
//! that are refused, and runs of every kind of length and content, under both
//! editions. `Receiver` and `improper` take each state in both layouts.

use std::fmt::Debug;

use harness::compare::{improper, Receiver};
use harness::face::{
    self, Counts, Date, Record, State, CANDIDATE, CONFIRMED, HUNTING, LOCKED, NO_TIME, TRYING,
};
use harness::feeds::{
    bits_of_all, empty_filler, time_block, troubled, unusable_time_block, MINUTE, MISHAPS,
};
use harness::fields;
use harness::independent::packed_state::packed;
use harness::independent::receiver::{is_proper, RUN};
use harness::independent::{bits_of, block, calendar, record, Edition, BLOCK, EDITIONS, PREFIX};
use harness::random::{report, Random};
use harness::refusals::{NOT_A_BIT, RUN_TOO_LONG};

/// 1 January 1986, 12:34, in 1984.
const RECORD: Record =
    Record { leap: 2, start_day: 3, week: 1, weekday: 3, hour: 12, minute: 34, offset: 2 };

/// Week 53 in a year without one.
const NO_WEEK: Record = Record { week: 53, ..RECORD };

/// The last minutes of years of 52 weeks, a common and a leap one (1986, 2012),
/// and of 53 weeks (1981, 1992).
fn last_minutes(edition: Edition) -> [Record; 4] {
    let common = Record { week: 52, weekday: 7, hour: 23, minute: 59, ..RECORD };
    let leap = Record { leap: 0, start_day: 7, ..common };
    let long = Record { leap: 1, start_day: 4, week: 53, ..common };
    let long_leap = Record { leap: 0, start_day: 3, ..long };
    [common, leap, long, long_leap].map(|record| edition.telling(record))
}

/// Records to hold: an ordinary one, the last minutes of years, one with two
/// minutes left, and the last minute of week 52 where week 53 follows.
fn records(edition: Edition) -> [Record; 7] {
    let [common, leap, long, long_leap] = last_minutes(edition);
    let two_left = Record { minute: 57, ..common };
    let before_week_53 = Record { week: 52, ..long };
    [edition.telling(RECORD), common, leap, long, long_leap, two_left, before_week_53]
}

fn hunting(waiting: usize) -> State {
    State::FRESH.with_waiting(&[1; BLOCK][..waiting])
}

fn trying(good: u8, waiting: usize) -> State {
    State { mode: TRYING, good, ..hunting(waiting) }
}

fn locked(bad: u8, waiting: usize) -> State {
    State { mode: LOCKED, bad, ..hunting(waiting) }
}

fn holding(time: u8, record: Record, age: u8, locked: State) -> State {
    State { time, record, age, ..locked }
}

/// Proper states of every mode and with every time.
fn proper_states(edition: Edition) -> Vec<State> {
    let records = records(edition);
    vec![
        hunting(0),
        hunting(49),
        trying(1, 7),
        trying(2, 0),
        locked(0, 30),
        locked(3, 0),
        holding(CANDIDATE, records[0], 0, locked(0, 0)),
        holding(CANDIDATE, records[3], 29, locked(3, 49)),
        holding(CONFIRMED, records[1], 73, locked(1, 20)),
        holding(CONFIRMED, records[5], 119, locked(2, 49)),
    ]
}

/// A proper state goes on; any other is refused. Answers which it is.
fn go_on_or_be_refused(edition: Edition, state: State, bits: &[u8]) -> bool {
    let proper = is_proper(edition, &state);
    if proper {
        for bit in [0, 1, 2, 255] {
            Receiver::going_on_from(edition, state).feed(bit);
        }
        Receiver::going_on_from(edition, state).run(&[]);
        Receiver::going_on_from(edition, state).run(bits);
    } else {
        improper(edition, state);
    }
    proper
}

#[test]
fn every_value_of_every_byte_of_a_state() {
    let bits = Random::named("bytes of states").bits(2 * BLOCK);
    let mut counts = [0; 2];
    for edition in EDITIONS {
        for state in proper_states(edition) {
            assert!(is_proper(edition, &state));
            for changed in fields::one_changed(state.bytes()) {
                let proper = go_on_or_be_refused(edition, State::of_bytes(changed), &bits);
                counts[usize::from(proper)] += 1;
            }
        }
    }
    let [improper, proper] = counts;
    println!("states with one byte changed: {proper} proper, {improper} not, compared");
}

/// Every combination of a time, proper or not, a record and an age.
fn times(edition: Edition) -> impl Iterator<Item = (u8, Record, u8)> {
    let out_of_range = Record { minute: 60, ..RECORD };
    let [usable, out_of_range, no_week] =
        [RECORD, out_of_range, NO_WEEK].map(|record| edition.telling(record));
    let records = [Record::default(), usable, out_of_range, no_week];
    let ages = [0, 1, 29, 30, 59, 60, 89, 90, 118, 119, 120, 255];
    [NO_TIME, CANDIDATE, CONFIRMED, 3].into_iter().flat_map(move |time| {
        ages.into_iter().flat_map(move |age| records.map(|record| (time, record, age)))
    })
}

/// How many of all the combinations of a state's parts are proper.
fn proper_combinations(edition: Edition, bits: &[u8]) -> usize {
    let mut proper = 0;
    for mode in [HUNTING, TRYING, LOCKED, 3] {
        for (good, bad) in (0..=4).flat_map(|good| (0..=5).map(move |bad| (good, bad))) {
            for (waiting, count) in [(0, 0), (1, 1), (49, 49), (50, 50), (51, 50), (255, 50)] {
                for (time, record, age) in times(edition) {
                    let state = State { mode, good, bad, ..hunting(count) };
                    let state = State { waiting, ..holding(time, record, age, state) };
                    proper += usize::from(go_on_or_be_refused(edition, state, bits));
                }
            }
        }
    }
    proper
}

#[test]
fn every_combination_of_the_parts_of_a_state() {
    let bits = Random::named("parts of states").bits(2 * BLOCK);
    for edition in EDITIONS {
        // Hunting, trying with 1 or 2, locked with 0 to 3, each with no time; and
        // locked with either time at ten ages. Three numbers waiting are proper.
        let expected = (1 + 2 + 4 + 4 * 2 * 10) * 3;
        assert_eq!(proper_combinations(edition, &bits), expected, "{edition:?}");
    }
}

/// Each edition's leap code of a leap year. One that starts on a Wednesday has a
/// week 53, and its record is not usable under the other edition.
#[test]
fn a_state_is_judged_by_the_edition_of_the_call() {
    let bits = bits_of_all(&[PREFIX; 3]);
    let kinds = (0..=3).flat_map(|leap| (1..=7).map(move |start_day| (leap, start_day)));
    for ((leap, start_day), week) in kinds.flat_map(|kind| [1, 52, 53].map(|week| (kind, week))) {
        let record = Record { leap, start_day, week, ..RECORD };
        let long = [0, 3].map(|code| start_day == 4 || (leap, start_day) == (code, 3));
        for (time, age) in [(CANDIDATE, 0), (CONFIRMED, 29), (CONFIRMED, 119)] {
            let state = holding(time, record, age, locked(0, 0));
            let proper = EDITIONS.map(|edition| go_on_or_be_refused(edition, state, &bits));
            assert_eq!(proper, long.map(|long| long || week < 53), "{record:?}");
        }
    }
}

#[test]
fn places_beyond_those_waiting() {
    for waiting in 0..BLOCK {
        for place in 0..BLOCK {
            for value in [0, 1, 2, 255] {
                let mut state = locked(0, waiting);
                state.bits[place] = value;
                for edition in EDITIONS {
                    go_on_or_be_refused(edition, state, &[1, 0]);
                }
            }
        }
    }
}

/// Blocks that may come to a receiver that holds this record: time blocks of up
/// to five minutes later, of `minutes` later with one field changed, and others,
/// the fillers of both editions among them.
fn blocks_to_come(
    edition: Edition,
    record: Record,
    minutes: usize,
    random: &mut Random,
) -> Vec<u64> {
    let later =
        |minutes| calendar::minutes_later(edition, record, minutes).expect("minutes to come");
    let changed = fields::one_changed(later(minutes).bytes()).map(Record::of_bytes);
    let told = (0..=5).map(later).chain(changed);
    let usable = told.filter(|record| calendar::usable(edition, record));
    let mut blocks: Vec<u64> = usable.map(time_block).collect();
    blocks.extend([random.usable_record(edition), edition.telling(NO_WEEK)].map(time_block));
    for filler in EDITIONS.map(empty_filler) {
        blocks.extend([filler, filler ^ 1, filler ^ PREFIX]);
    }
    blocks.extend([block(1, 0), random.block()]);
    blocks.extend([(); 5].map(|()| unusable_time_block(edition, random)));
    blocks
}

/// Each of these blocks to the state, and one more of them; gives how many there
/// are.
fn to_a_locked_receiver(
    edition: Edition,
    state: State,
    blocks: &[u64],
    random: &mut Random,
) -> usize {
    for &sent in blocks {
        let waiting = random.below(BLOCK);
        let bits = bits_of(sent);
        let state = state.with_waiting(&bits[..waiting]);
        let mut receiver = Receiver::going_on_from(edition, state);
        receiver.run(&bits[waiting..]);
        // So that what it left goes on.
        receiver.run(&bits_of(blocks[random.below(blocks.len())]));
    }
    blocks.len()
}

#[test]
fn every_block_to_a_locked_receiver() {
    let mut random = Random::named("steps");
    let mut count = 0;
    let records =
        EDITIONS.into_iter().flat_map(|edition| records(edition).map(|record| (edition, record)));
    for (edition, record) in records {
        // At every age those for the minute that goes on.
        let by_minute =
            [1, 2, 3, 4].map(|minutes| blocks_to_come(edition, record, minutes, &mut random));
        for (time, age) in (0..120).flat_map(|age| [(CANDIDATE, age), (CONFIRMED, age)]) {
            let blocks = &by_minute[usize::from(age) / MINUTE];
            for bad in 0..=3 {
                let state = holding(time, record, age, locked(bad, 0));
                count += to_a_locked_receiver(edition, state, blocks, &mut random);
            }
        }
    }
    report("blocks to a locked receiver", count);
}

/// The state in which this block leaves a receiver that has held a record for so
/// many minutes when the block ends.
fn after_minutes(edition: Edition, record: Record, minutes: u8, sent: u64) -> State {
    let state = holding(CONFIRMED, record, minutes * MINUTE as u8 - 1, locked(0, 0));
    let mut receiver = Receiver::going_on_from(edition, state);
    receiver.run(&bits_of(sent));
    *receiver.state()
}

/// Minutes of the last hour of a day, each with how many minutes of the four
/// that a time is held lead over midnight.
fn over_midnight() -> impl Iterator<Item = (u8, u8)> {
    (56..60).flat_map(|minute| (60 - minute..=4).map(move |minutes| (minute, minutes)))
}

/// The records of all days of 28 coded years, so of every kind of year.
fn every_kind_of_day(edition: Edition) -> Vec<Record> {
    let years = |date: &Date| (1986..1986 + 28).contains(&calendar::coded_year(*date));
    let days = calendar::days_with_record().filter(years);
    days.map(|day| calendar::record_of_date(edition, day).expect("a record")).collect()
}

/// The first day of the next kind of year confirms, and no other day of any.
#[test]
fn one_day_alone_confirms_over_the_end_of_a_year() {
    let next_kinds = [(3, 4), (1, 2), (2, 5), (1, 5)];
    for edition in EDITIONS {
        let days = every_kind_of_day(edition);
        for (last, (leap, start_day)) in last_minutes(edition).into_iter().zip(next_kinds) {
            let first = Record { leap, start_day, week: 1, weekday: 1, ..Record::default() };
            for (minute, minutes) in over_midnight() {
                let held = Record { minute, ..last };
                let confirms = |day: &Record| {
                    let told = Record { minute: minute + minutes - 60, ..*day };
                    after_minutes(edition, held, minutes, time_block(told)).time == CONFIRMED
                };
                let confirming: Vec<Record> = days.iter().copied().filter(confirms).collect();
                assert_eq!(
                    confirming,
                    [edition.telling(first)],
                    "{minutes} minutes after {held:?}"
                );
            }
        }
    }
}

/// A block that tells one week more than the year has is not usable.
#[test]
fn no_week_confirms_behind_the_last_of_a_year() {
    const ONE_WEEK: u32 = 1 << 20;
    for (edition, last) in
        EDITIONS.into_iter().flat_map(|edition| last_minutes(edition).map(|last| (edition, last)))
    {
        for (minute, minutes) in over_midnight() {
            let held = Record { minute, ..last };
            let monday = Record { weekday: 1, hour: 0, minute: minute + minutes - 60, ..held };
            let word = record::write(monday).expect("fields in range") + ONE_WEEK;
            let state = after_minutes(edition, held, minutes, block(0, word));
            let expected =
                if minutes < 4 { (CONFIRMED, held) } else { (NO_TIME, Record::default()) };
            assert_eq!((state.time, state.record), expected, "{minutes} minutes after {held:?}");
        }
    }
}

#[test]
fn a_million_random_proper_states() {
    const COUNT: usize = 1_000_000;
    let mut random = Random::named("proper states");
    for edition in EDITIONS {
        for _ in 0..COUNT {
            let waiting = random.below(BLOCK);
            let bits = bits_of(random.block());
            let state = random.proper_state(edition).with_waiting(&bits[..waiting]);
            let mut receiver = Receiver::going_on_from(edition, state);
            receiver.run(&bits[waiting..]);
            let more = random.below(120);
            receiver.run(&random.bits(more));
        }
    }
    report("random proper states", 2 * COUNT);
}

/// A feed with every kind of mishap.
fn any_feed(edition: Edition, minutes: usize, every: usize, random: &mut Random) -> Vec<u8> {
    troubled(edition, random, minutes, every, |random| MISHAPS[random.below(MISHAPS.len())])
}

#[test]
fn the_longest_runs() {
    let mut random = Random::named("longest runs");
    for edition in EDITIONS {
        let feed = any_feed(edition, 60, 100, &mut random);
        for len in [0, 1, RUN - 1, RUN, RUN + 1, RUN + 2, feed.len()] {
            for state in proper_states(edition) {
                let mut receiver = Receiver::going_on_from(edition, state);
                let refusal = receiver.run(&feed[..len]).refusal;
                assert_eq!(refusal, if len > RUN { RUN_TOO_LONG } else { 0 }, "{len} bits");
            }
        }
    }
}

#[test]
fn tests_come_in_their_order() {
    for edition in EDITIONS {
        // 9 before 1; that 9 comes before 10, and 10 before 1, is in `improper`.
        let counts = Receiver::fresh(edition).run(&[7; RUN + 1]);
        assert_eq!(counts, Counts::refused(RUN_TOO_LONG));
        improper(edition, State { mode: 3, ..State::FRESH });
        let counts = Receiver::going_on_from(edition, locked(0, 17)).feed(2);
        assert_eq!(counts, Counts { refusal: NOT_A_BIT, waiting: 17, ..Counts::default() });
    }
}

/// Behind a byte that is no bit a run goes on as if that had not been there.
fn must_go_on_behind(edition: Edition, state: State, value: u8, good: &[u8]) {
    assert_eq!(Receiver::going_on_from(edition, state).feed(value).refusal, NOT_A_BIT);
    for place in (0..good.len()).step_by(7).chain([49, 50]) {
        let mut bits = good.to_vec();
        bits[place] = value;
        let mut receiver = Receiver::going_on_from(edition, state);
        assert_eq!(receiver.run(&bits).refusal, NOT_A_BIT);
        receiver.run(&bits[place + 1..]);
    }
}

#[test]
fn a_byte_that_is_not_a_bit() {
    for edition in EDITIONS {
        let told = time_block(edition.telling(RECORD));
        let good = bits_of_all(&[empty_filler(edition), told, block(3, 5)]);
        for state in proper_states(edition) {
            (2..=255).for_each(|value| must_go_on_behind(edition, state, value, &good));
        }
    }
}

#[test]
fn a_run_of_two_strings_is_two_runs() {
    const COUNT: usize = 2_000;
    let mut random = Random::named("two runs");
    for edition in EDITIONS {
        let states = proper_states(edition);
        let mut bits = Vec::new();
        for round in 0..COUNT {
            if round % 100 == 0 {
                bits = any_feed(edition, 8, 50, &mut random);
            }
            let state = states[random.below(states.len())];
            let parts = bits.split_at(random.below(bits.len()));
            must_be_two_runs(edition, face::run, state, &bits, parts);
            let state = packed(&state).expect("places that hold bits");
            must_be_two_runs(edition, face::run_packed, state, &bits, parts);
        }
    }
    report("runs of two strings", 2 * COUNT);
}

/// A run of the whole must leave and count what runs of its two parts do.
fn must_be_two_runs<S: Copy + Debug + PartialEq>(
    edition: Edition,
    run: fn(u16, &mut S, &[u8]) -> Counts,
    state: S,
    bits: &[u8],
    (first, second): (&[u8], &[u8]),
) {
    let run = |state: &mut S, bits: &[u8]| run(edition.number(), state, bits);
    let mut whole = state;
    let counts = run(&mut whole, bits);
    let mut parts = state;
    let one = run(&mut parts, first);
    let other = run(&mut parts, second);
    let sum = Counts {
        refusal: 0,
        good: one.good + other.good,
        bad: one.bad + other.bad,
        passed: one.passed + other.passed,
        waiting: other.waiting,
        remainder: match other.remainder {
            0 => one.remainder,
            later => later,
        },
    };
    assert_eq!((counts, whole), (sum, parts), "split after {} bits", first.len());
}
