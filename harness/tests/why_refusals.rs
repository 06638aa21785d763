//! Request No. 11 against the library: what is refused when a receiver is watched,
//! in which order, and that nothing changes then, under both editions.

use std::mem::{size_of, MaybeUninit};

use harness::compare::{asking, refused_run, Watcher};
use harness::face::{
    self, Counts, PackedState, Record, Watch, CANDIDATE, CONFIRMED, LOCKED, TRYING,
};
use harness::feeds::time_block;
use harness::fields::one_replaced;
use harness::independent::receiver::RUN;
use harness::independent::watch::{is_proper, refusal, Why};
use harness::independent::{bits_of, packed_state, Edition, BLOCK, EDITIONS};
use harness::random::{report, Random};
use harness::refusals::{IMPROPER, NOT_A_BIT, OUT_OF_RANGE, RUN_TOO_LONG};

/// 1 January 1986, 12:34, in 1984.
const RECORD: Record =
    Record { leap: 2, start_day: 3, week: 1, weekday: 3, hour: 12, minute: 34, offset: 2 };

/// The two editions and some numbers that name none.
const NUMBERS: [u16; 8] = [1984, 1982, 0, 1, 1983, 1985, 84, 65_535];

const LOCKED_STATE: PackedState = PackedState {
    mode: LOCKED,
    good: 0,
    bad: 0,
    waiting: 0,
    bits: 0,
    time: 0,
    record: NONE,
    age: 0,
};

const NONE: Record =
    Record { leap: 0, start_day: 0, week: 0, weekday: 0, hour: 0, minute: 0, offset: 0 };

fn holding(time: u8, record: Record) -> PackedState {
    PackedState { time, record, age: 29, ..LOCKED_STATE }
}

/// A proper state of each mode and with each time.
fn proper_states(edition: Edition) -> [PackedState; 5] {
    let fresh = PackedState::default();
    let record = edition.telling(RECORD);
    [
        PackedState { waiting: 2, bits: 3 << 48, ..fresh },
        PackedState { mode: TRYING, good: 2, ..fresh },
        PackedState { bad: 3, ..LOCKED_STATE },
        holding(CANDIDATE, record),
        holding(CONFIRMED, record),
    ]
}

/// Week 53 of a leap year that starts on a Wednesday: no other edition has it.
fn of_one_edition(edition: Edition) -> PackedState {
    holding(CANDIDATE, Record { leap: edition.leap_codes()[0], week: 53, ..RECORD })
}

/// States with one thing wrong each.
fn improper_states(edition: Edition) -> Vec<PackedState> {
    let [hunting, trying, locked, candidate, _] = proper_states(edition);
    vec![
        PackedState { mode: 3, ..hunting },
        PackedState { good: 1, ..hunting },
        PackedState { waiting: 50, ..hunting },
        PackedState { waiting: 1, ..hunting },
        PackedState { bits: 1 << 50, ..hunting },
        PackedState { good: 3, ..trying },
        PackedState { bad: 4, ..locked },
        PackedState { time: CANDIDATE, ..locked },
        PackedState { time: 3, ..candidate },
        PackedState { age: 120, ..candidate },
        PackedState { age: 1, ..locked },
        PackedState { mode: TRYING, good: 1, ..candidate },
        of_one_edition(edition.other()),
    ]
}

fn numbered(state: PackedState, fed: u64, lost: u64, dropped: u64, displaced: u64) -> Watch {
    Watch { state, fed, lost, dropped, displaced }
}

/// A watch that has each number where it may be.
fn proper(state: PackedState, fed: u64) -> Watch {
    let [dropped, displaced] = [state.mode == LOCKED, state.time == CANDIDATE].map(u64::from);
    let bit = fed / 2;
    numbered(state, fed, bit, bit * dropped, bit * displaced)
}

/// A watch goes on or is refused; gives whether it is proper.
fn go_on_or_be_refused(edition: Edition, watch: Watch, bits: &[u8]) -> bool {
    let number = edition.number();
    let proper = is_proper(edition, &watch);
    assert_eq!(asking(number, watch).err(), (!proper).then_some(IMPROPER));
    for len in [0, 1, bits.len()] {
        if refusal(number, &watch, len).is_some() {
            refused_run(number, watch, &bits[..len]);
        } else {
            let mut watcher = Watcher::going_on_from(edition, watch);
            watcher.run(&bits[..len]);
            watcher.why();
        }
    }
    proper
}

/// What makes a watch proper, said once more: its state is, no number is above
/// `fed`, and each stands only where it can.
fn must_be_proper_as_said(edition: Edition, watch: Watch, bits: &[u8]) -> bool {
    let Watch { state, fed, lost, dropped, displaced } = watch;
    let fits = |number: u64, used: bool| number == 0 || used && number <= fed;
    let expected = packed_state::is_proper(edition, &state)
        && fits(lost, true)
        && fits(dropped, state.mode == LOCKED)
        && fits(displaced, state.time == CANDIDATE);
    assert_eq!(go_on_or_be_refused(edition, watch, bits), expected, "{watch:?}");
    expected
}

#[test]
fn every_combination_of_the_numbers_of_a_watch() {
    let bits = Random::named("numbers of watches").bits(2 * BLOCK);
    let mut counts = [0; 2];
    for edition in EDITIONS {
        let states = [&proper_states(edition)[..], &improper_states(edition)].concat();
        for (state, fed) in states
            .iter()
            .flat_map(|&state| [0, 1, 1_000, u64::MAX - 100, u64::MAX].map(|fed| (state, fed)))
        {
            let values = [0, 1, fed, fed.saturating_add(1), u64::MAX];
            for lost in values {
                for (dropped, displaced) in
                    values.iter().flat_map(|&dropped| values.map(|displaced| (dropped, displaced)))
                {
                    let watch = numbered(state, fed, lost, dropped, displaced);
                    let proper = must_be_proper_as_said(edition, watch, &bits);
                    counts[usize::from(proper)] += 1;
                }
            }
        }
    }
    let [improper, proper] = counts;
    println!(
        "watches with every combination of numbers: {proper} proper, {improper} not, compared"
    );
}

/// Each way in which a watch is not proper by its numbers alone, and the nearest
/// watch that is.
#[test]
fn numbers_that_do_not_fit() {
    const FED: u64 = 5_000;
    for edition in EDITIONS {
        let [hunting, trying, locked, candidate, confirmed] = proper_states(edition);
        for (state, lost, dropped, displaced, proper) in [
            (hunting, FED, 0, 0, true),
            (hunting, FED + 1, 0, 0, false),
            (hunting, 0, 1, 0, false),
            (hunting, 0, 0, 1, false),
            (trying, FED, 0, 0, true),
            (trying, 0, FED, 0, false),
            (trying, 0, 0, FED, false),
            (locked, FED, FED, 0, true),
            (locked, 0, FED + 1, 0, false),
            (locked, 0, 0, 1, false),
            (candidate, FED, FED, FED, true),
            (candidate, 0, FED + 1, 0, false),
            (candidate, 0, 0, FED + 1, false),
            (candidate, u64::MAX, 0, 0, false),
            (confirmed, FED, FED, 0, true),
            (confirmed, 0, 0, 1, false),
        ] {
            let watch = numbered(state, FED, lost, dropped, displaced);
            assert_eq!(go_on_or_be_refused(edition, watch, &[1; 60]), proper, "{watch:?}");
        }
    }
}

/// A watch whose state is proper in one edition only is judged by that of the call.
#[test]
fn a_watch_is_judged_by_the_edition_of_the_call() {
    for edition in EDITIONS {
        let watch = proper(of_one_edition(edition), 1_000);
        assert_eq!(asking(edition.number(), watch), Ok(Why::NotNextMinute(500)));
        assert_eq!(asking(edition.other().number(), watch), Err(IMPROPER));
        assert!(go_on_or_be_refused(edition, watch, &[0; 70]));
        assert!(!go_on_or_be_refused(edition.other(), watch, &[0; 70]));
    }
}

#[test]
fn every_other_number_names_no_edition() {
    let edition = Edition::Of1984;
    let watches = [
        Watch::default(),
        proper(proper_states(edition)[3], 1_000),
        proper(improper_states(edition)[0], 1_000),
        numbered(LOCKED_STATE, 0, 1, 1, 1),
    ];
    for number in (0..=u16::MAX).filter(|number| ![1984, 1982].contains(number)) {
        for watch in watches {
            assert_eq!(asking(number, watch), Err(OUT_OF_RANGE));
            assert_eq!(refused_run(number, watch, &[0, 1, 7]), OUT_OF_RANGE);
        }
    }
}

/// Watches of which some have room for so many more bits, some for one too few, and
/// some are not proper.
fn watches(edition: Edition, len: usize) -> Vec<Watch> {
    let room = u64::MAX - len as u64;
    let mut watches = Vec::new();
    for fed in [0, 1_000, room, room.saturating_add(1), u64::MAX] {
        let [hunting, _, locked, candidate, _] = proper_states(edition);
        watches
            .extend([hunting, candidate, of_one_edition(edition)].map(|state| proper(state, fed)));
        watches.push(proper(PackedState { mode: 3, ..hunting }, fed));
        watches.push(numbered(hunting, fed, 0, 1, 0));
        watches.push(numbered(locked, fed, 0, 0, 1));
        watches.push(numbered(candidate, fed.min(room), u64::MAX, 0, 0));
    }
    watches
}

/// With what a run must be answered, said once more: the edition, then the length,
/// by itself and for the watch, then the watch, then the bits.
fn first_refusal(number: u16, watch: &Watch, bytes: &[u8]) -> u8 {
    let edition = EDITIONS.into_iter().find(|edition| edition.number() == number);
    let past = u128::from(watch.fed) + bytes.len() as u128 > u128::from(u64::MAX);
    match edition {
        None => OUT_OF_RANGE,
        Some(_) if bytes.len() > 65_536 || past => RUN_TOO_LONG,
        Some(edition) if !is_proper(edition, watch) => IMPROPER,
        Some(_) if bytes.iter().any(|&byte| byte > 1) => NOT_A_BIT,
        Some(_) => 0,
    }
}

/// Compares one run; gives its refusal.
fn run_or_be_refused(number: u16, watch: Watch, bytes: &[u8]) -> u8 {
    match (first_refusal(number, &watch, bytes), Edition::named(number)) {
        (NOT_A_BIT | 0, Ok(edition)) => Watcher::going_on_from(edition, watch).run(bytes).refusal,
        _ => refused_run(number, watch, bytes),
    }
}

#[test]
fn tests_come_in_their_order() {
    let mut counts = [0; 11];
    for (edition, len) in
        EDITIONS.into_iter().flat_map(|edition| [0, 1, 60, RUN, RUN + 1].map(|len| (edition, len)))
    {
        let contents = one_replaced(&Random::named("contents").bits(len), 2);
        for watch in watches(edition, len) {
            for number in NUMBERS {
                for bytes in &contents {
                    let refusal = run_or_be_refused(number, watch, bytes);
                    assert_eq!(refusal, first_refusal(number, &watch, bytes), "{watch:?}");
                    counts[usize::from(refusal)] += 1;
                }
            }
        }
    }
    for refusal in [0, NOT_A_BIT, OUT_OF_RANGE, RUN_TOO_LONG, IMPROPER] {
        println!("watched runs answered with {refusal}: {}", counts[usize::from(refusal)]);
        assert!(counts[usize::from(refusal)] > 0);
    }
}

/// The last bits that can be counted are fed; then none, but a run of none.
#[test]
fn bits_are_counted_up_to_the_largest_number() {
    for edition in EDITIONS {
        for state in proper_states(edition) {
            for room in [0, 1, 49, 50, 200, RUN] {
                let mut watcher =
                    Watcher::going_on_from(edition, proper(state, u64::MAX - room as u64));
                let bits = [0].repeat(room + 1);
                if room < RUN {
                    assert_eq!(watcher.run(&bits), Counts::refused(RUN_TOO_LONG));
                }
                // Whatever its bits: those before a byte that is none would find room.
                let mut bytes = bits.clone();
                bytes[0] = 9;
                assert_eq!(watcher.run(&bytes), Counts::refused(RUN_TOO_LONG));
                assert_eq!(watcher.run(&bits[..room]).refusal, 0);
                assert_eq!(watcher.watch().fed, u64::MAX);
                assert_eq!(watcher.run(&[]).refusal, 0);
                assert_eq!(watcher.run(&[0]), Counts::refused(RUN_TOO_LONG));
                watcher.why();
            }
        }
    }
}

/// Events with the largest number: a loss, a drop and a displacement.
#[test]
fn events_are_told_up_to_the_largest_number() {
    const LAST: u64 = u64::MAX;
    for edition in EDITIONS {
        let [_, _, locked, candidate, confirmed] = proper_states(edition);
        let after = |state: PackedState, bits: &[u8]| {
            let watch = numbered(state, LAST - BLOCK as u64, 0, 0, 0);
            let mut watcher = Watcher::going_on_from(edition, watch);
            watcher.run(bits);
            watcher.why()
        };
        assert_eq!(after(locked, &[0; BLOCK]), Why::LockLost(LAST));
        for state in [candidate, confirmed].map(|state| PackedState { age: 119, ..state }) {
            assert_eq!(after(state, &[0; BLOCK]), Why::BlockMissing(LAST));
            let last_bad = PackedState { bad: 3, ..state };
            assert_eq!(after(last_bad, &[0; BLOCK]), Why::LockLost(LAST));
            let same = bits_of(time_block(state.record));
            assert_eq!(after(state, &same), Why::NotNextMinute(LAST));
        }
    }
}

#[test]
fn a_byte_that_is_not_a_bit_at_every_place() {
    let mut random = Random::named("watched places");
    let mut count = 0;
    for edition in EDITIONS {
        for state in proper_states(edition) {
            for place in 0..=3 * BLOCK {
                let mut watcher = Watcher::going_on_from(edition, proper(state, 7_000));
                let mut bytes = random.bits(place);
                bytes.extend([random.not_a_bit(), 1, 0]);
                assert_eq!(watcher.run(&bytes).refusal, NOT_A_BIT);
                assert_eq!(watcher.watch().fed, 7_000 + place as u64);
                watcher.why();
                count += place;
            }
        }
    }
    report("bits before a byte that is none", count);
}

/// The watch in a place of which every byte was written before, so that this lies
/// between the fields.
fn filled(filling: u8, watch: Watch, place: &mut MaybeUninit<Watch>) -> &mut Watch {
    // Every byte is written first, then each field, and only these.
    let filled = unsafe {
        place.as_mut_ptr().write_bytes(filling, 1);
        place.assume_init_mut()
    };
    let PackedState { mode, good, bad, waiting, bits, time, record, age } = watch.state;
    let state = &mut filled.state;
    (state.mode, state.good, state.bad, state.waiting) = (mode, good, bad, waiting);
    (state.bits, state.time, state.record, state.age) = (bits, time, record, age);
    (filled.fed, filled.lost) = (watch.fed, watch.lost);
    (filled.dropped, filled.displaced) = (watch.dropped, watch.displaced);
    filled
}

/// Whatever lies between the fields, the library takes the watch as it is.
#[test]
fn the_bytes_between_the_fields_do_not_matter() {
    assert_eq!(size_of::<Watch>(), 64);
    let mut random = Random::named("between the fields of a watch");
    for (edition, filling) in EDITIONS
        .into_iter()
        .flat_map(|edition| [0, 1, 0xA5, 0xFF].map(|filling| (edition, filling)))
    {
        let start = proper(proper_states(edition)[3], 1_000);
        let mut place = MaybeUninit::uninit();
        let watch = filled(filling, start, &mut place);
        let mut watcher = Watcher::going_on_from(edition, start);
        for piece in random.bits(1_000).chunks(BLOCK + 3) {
            let counts = face::watch_run(edition.number(), watch, piece);
            assert_eq!((counts, *watch), (watcher.run(piece), *watcher.watch()));
            assert_eq!(face::why(edition.number(), *watch), Ok(watcher.why()).into());
        }
    }
}

#[test]
fn a_fresh_watch_is_all_zeros() {
    assert_eq!(face::watch_fresh(), Watch::default());
    for edition in EDITIONS {
        assert!(is_proper(edition, &face::watch_fresh()));
        assert_eq!(asking(edition.number(), face::watch_fresh()), Ok(Why::NeverLocked));
    }
}
