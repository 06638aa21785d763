//! The library's packed state where it differs from the fifty bytes: which
//! places of its number may be in use, and what lies between its fields, under
//! both editions. All else is compared with the fifty-byte state, both at once.

use std::mem::{size_of, MaybeUninit};

use harness::compare::{improper_packed, Receiver};
use harness::face::{self, PackedState, Record, CANDIDATE, LOCKED, TRYING};
use harness::independent::packed::LARGEST;
use harness::independent::packed_state::{is_proper, packed, unpacked};
use harness::independent::{bits_of, remainder, Edition, BLOCK, EDITIONS, PREFIX};
use harness::random::{report, Random};

/// 1 January 1986, 12:34, in 1984.
const RECORD: Record =
    Record { leap: 2, start_day: 3, week: 1, weekday: 3, hour: 12, minute: 34, offset: 2 };

/// States with nothing waiting, one for each mode and one that holds the time.
fn empty_states(edition: Edition) -> [PackedState; 4] {
    let hunting = PackedState::default();
    let locked = PackedState { mode: LOCKED, bad: 2, ..hunting };
    [
        hunting,
        PackedState { mode: TRYING, good: 1, ..hunting },
        locked,
        PackedState { time: CANDIDATE, record: edition.telling(RECORD), age: 119, ..locked },
    ]
}

/// The number in which exactly the places of so many waiting bits are 1.
fn all_ones(waiting: u8) -> u64 {
    (0..waiting).fold(0, |bits, bit| bits | 1 << (49 - bit))
}

/// A proper state goes on; any other is refused. Answers which it is.
fn go_on_or_be_refused(edition: Edition, state: PackedState, bits: &[u8]) -> bool {
    let proper = is_proper(edition, &state);
    if proper {
        let state = unpacked(&state).expect("fifty bits");
        for bit in [0, 1, 2, 255] {
            Receiver::going_on_from(edition, state).feed(bit);
        }
        Receiver::going_on_from(edition, state).run(bits);
    } else {
        improper_packed(edition, state);
    }
    proper
}

#[test]
fn a_fresh_state_is_all_zeros() {
    assert_eq!(face::fresh_packed(), PackedState::default());
    assert!(EDITIONS.into_iter().all(|edition| is_proper(edition, &face::fresh_packed())));
}

/// Each place may be set exactly where a bit waits.
fn every_place(edition: Edition, state: PackedState, feed: &[u8]) {
    assert!(go_on_or_be_refused(edition, state, feed), "{state:?}");
    for place in 0..64 {
        let waits = (50 - state.waiting..50).contains(&place);
        let state = PackedState { bits: state.bits ^ 1 << place, ..state };
        assert_eq!(go_on_or_be_refused(edition, state, feed), waits, "{state:?}");
    }
}

#[test]
fn every_place_of_the_number() {
    let feed = Random::named("places of the number").bits(2 * BLOCK);
    for edition in EDITIONS {
        for state in empty_states(edition) {
            for waiting in 0..50 {
                for bits in [0, all_ones(waiting)] {
                    every_place(edition, PackedState { waiting, bits, ..state }, &feed);
                }
            }
        }
    }
}

#[test]
fn too_many_waiting() {
    for edition in EDITIONS {
        for state in empty_states(edition) {
            for waiting in 50..=255 {
                for bits in [0, 1, LARGEST, LARGEST - 1, LARGEST + 1, u64::MAX] {
                    improper_packed(edition, PackedState { waiting, bits, ..state });
                }
            }
        }
    }
}

#[test]
fn a_million_random_numbers_to_wait() {
    const COUNT: usize = 1_000_000;
    let mut random = Random::named("numbers to wait");
    let mut proper = 0;
    for edition in EDITIONS {
        for _ in 0..COUNT {
            let state = empty_states(edition)[random.below(4)];
            let waiting = random.between(0, 51);
            // In every other one only places in use are set.
            let within = if random.below(2) == 0 { all_ones(waiting.min(50)) } else { u64::MAX };
            let state = PackedState { waiting, bits: random.number() & within, ..state };
            let more = random.below(60);
            proper += usize::from(go_on_or_be_refused(edition, state, &random.bits(more)));
        }
    }
    assert!((COUNT / 3 * 2..COUNT / 3 * 4).contains(&proper), "{proper} proper");
    report("packed states with random numbers", 2 * COUNT);
}

#[test]
fn the_waiting_bits_have_their_part_in_the_remainder() {
    // A block with one changed place, cut in two anywhere: the first part waits.
    for place in 0..49 {
        let damaged = PREFIX ^ 1 << place;
        let told = remainder(1 << place) as u16;
        for waiting in 0..50 {
            let bits = damaged & all_ones(waiting);
            let state = PackedState { mode: LOCKED, waiting, bits, ..PackedState::default() };
            let state = unpacked(&state).expect("fifty bits");
            for edition in EDITIONS {
                let mut receiver = Receiver::going_on_from(edition, state);
                let counts = receiver.run(&bits_of(damaged)[waiting.into()..]);
                let answer = (counts.bad, counts.remainder);
                assert_eq!(answer, (1, told), "place {place}, {waiting} wait");
            }
        }
    }
}

/// The state in a place of which every byte was written before, so that this lies
/// between the fields.
fn filled(
    filling: u8,
    state: PackedState,
    place: &mut MaybeUninit<PackedState>,
) -> &mut PackedState {
    // Every byte is written first, then each field, and only these.
    let filled = unsafe {
        place.as_mut_ptr().write_bytes(filling, 1);
        place.assume_init_mut()
    };
    let PackedState { mode, good, bad, waiting, bits, time, record, age } = state;
    (filled.mode, filled.good, filled.bad, filled.waiting) = (mode, good, bad, waiting);
    (filled.bits, filled.time, filled.record, filled.age) = (bits, time, record, age);
    filled
}

/// Whatever lies between the fields, the library takes the state as it is.
#[test]
fn the_bytes_between_the_fields_do_not_matter() {
    assert_eq!(size_of::<PackedState>(), 32);
    let mut random = Random::named("between the fields");
    for edition in EDITIONS {
        for filling in [0, 1, 0xA5, 0xFF] {
            let bits = random.bits(1_000);
            let mut place = MaybeUninit::uninit();
            let state = filled(filling, empty_states(edition)[3], &mut place);
            let unpacked = unpacked(state).expect("fifty bits");
            let mut receiver = Receiver::going_on_from(edition, unpacked);
            for piece in bits.chunks(BLOCK + 3) {
                let counts = face::run_packed(edition.number(), state, piece);
                assert_eq!(counts, receiver.run(piece));
                assert_eq!(Some(*state), packed(receiver.state()), "filled with {filling}");
            }
        }
    }
}
