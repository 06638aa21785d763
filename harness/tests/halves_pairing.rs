//! Request No. 1 against the library: which readings belong together, how many bits
//! they give, and where these go.

use std::cmp::Ordering;

use harness::compare::deciding;
use harness::independent::halves::COUNTED;
use harness::random::{report, Random};
use harness::readings::{any_reading, any_size, with_any_sign, with_counts};
use harness::refusals::{EQUAL_PAIRINGS, NO_ROOM, TOO_FEW_READINGS};

/// The most pairs of opposite sign in either pairing.
const MOST: [usize; 2] = [32, 31];

/// What lies in a lent slice before.
const RUBBISH: u8 = 0xA5;

/// The pairing that these counts give.
fn pairing_of([even, odd]: [usize; 2]) -> Result<u8, u8> {
    match even.cmp(&odd) {
        Ordering::Greater => Ok(0),
        Ordering::Less => Ok(1),
        Ordering::Equal => Err(EQUAL_PAIRINGS),
    }
}

/// The pairing of readings on which both agree, with room for all bits.
fn taken(readings: &[f32], polarity: u8) -> Result<u8, u8> {
    let room = vec![RUBBISH; readings.len() / 2 + 1];
    let answer = deciding(readings, 0.5, polarity, &room);
    if let Ok((pairing, bits)) = &answer {
        assert_eq!(bits.len(), (readings.len() - usize::from(*pairing)) / 2);
    }
    answer.map(|(pairing, _)| pairing)
}

/// All counts that there are.
fn all_counts() -> impl Iterator<Item = [usize; 2]> {
    (0..=MOST[0]).flat_map(|even| (0..=MOST[1]).map(move |odd| [even, odd]))
}

/// Counts of which neither is ahead of the other by more than one.
fn close_counts() -> impl Iterator<Item = [usize; 2]> {
    all_counts().filter(|[even, odd]| even.abs_diff(*odd) <= 1)
}

/// The pairs of opposite sign, from the signs as numbers; a zero has none.
fn counts_of(signs: &[i32]) -> [usize; 2] {
    let products: Vec<i32> = signs.windows(2).map(|two| two[0] * two[1]).collect();
    let opposite = |first| products.iter().skip(first).step_by(2).filter(|&&sign| sign < 0).count();
    [opposite(0), opposite(1)]
}

/// Random readings with these signs.
fn with_signs(random: &mut Random, signs: &[i32]) -> Vec<f32> {
    let reading = |&sign: &i32| match sign {
        0 => with_any_sign(random, 0.0),
        _ => any_size(random) * sign as f32,
    };
    signs.iter().map(reading).collect()
}

#[test]
fn every_count_of_either_pairing() {
    const ROUNDS: usize = 30;
    let mut random = Random::named("counts of pairings");
    for counts in all_counts() {
        for round in 0..ROUNDS {
            let len = COUNTED + random.below(10);
            let readings = with_counts(&mut random, counts, len);
            let polarity = (round % 2) as u8;
            assert_eq!(taken(&readings, polarity), pairing_of(counts), "{counts:?}");
        }
    }
    report("counts of either pairing", all_counts().count() * ROUNDS);
}

/// With the reading before it the 65th would be a pair of pairing 1.
#[test]
fn the_reading_after_the_sixty_fourth_has_no_say() {
    const ROUNDS: usize = 20;
    let mut random = Random::named("the 65th reading");
    let mut opposite = 0;
    for counts in close_counts() {
        for _ in 0..ROUNDS {
            let mut readings = with_counts(&mut random, counts, COUNTED + 1);
            let expected = pairing_of(counts);
            assert_eq!(taken(&readings[..COUNTED], 0), expected, "{counts:?} of 64");
            for last in [1.0, -1.0, 0.0, -0.0, 45.0, -45.0] {
                readings[COUNTED] = last;
                assert_eq!(taken(&readings, 0), expected, "{counts:?}, then {last:?}");
                opposite += usize::from(readings[COUNTED - 1] * last < 0.0);
            }
        }
    }
    assert_eq!(opposite, close_counts().count() * ROUNDS * 2);
    report("counts with a reading behind", close_counts().count() * ROUNDS * 6);
}

#[test]
fn all_that_comes_later_has_no_say() {
    let mut random = Random::named("later readings");
    let mut count = 0;
    for counts in close_counts() {
        let readings = with_counts(&mut random, counts, COUNTED);
        for later in 1..=100 {
            // Of opposite sign in both pairings, in none, or anything.
            let sign = with_any_sign(&mut random, 1.0);
            let turning = (0..later).map(|place| if place % 2 == 0 { sign } else { -sign });
            let any: Vec<f32> = (0..later).map(|_| any_reading(&mut random)).collect();
            for behind in [turning.collect(), vec![sign; later], any] {
                let all = [&readings[..], &behind].concat();
                assert_eq!(taken(&all, 1), pairing_of(counts), "{counts:?}, then {behind:?}");
                count += 1;
            }
        }
    }
    report("counts with readings behind", count);
}

/// A zero, whatever its sign bit, at every place of readings with close counts, and
/// readings of which many are zeros.
#[test]
fn zero_has_no_sign() {
    let mut random = Random::named("zeros");
    let mut changed = 0;
    for counts in close_counts() {
        let readings = with_counts(&mut random, counts, COUNTED);
        let signs: Vec<i32> = readings.iter().map(|reading| reading.signum() as i32).collect();
        assert_eq!(counts_of(&signs), counts);
        for place in 0..COUNTED {
            let mut signs = signs.clone();
            signs[place] = 0;
            let expected = pairing_of(counts_of(&signs));
            changed += usize::from(expected != pairing_of(counts));
            for zero in [0.0, -0.0] {
                let mut readings = readings.clone();
                readings[place] = zero;
                assert_eq!(taken(&readings, 0), expected, "{zero:?} at {place}, {counts:?}");
            }
        }
    }
    assert!(changed > 1_000, "{changed}");
    const COUNT: usize = 20_000;
    for _ in 0..COUNT {
        let signs: Vec<i32> = (0..COUNTED).map(|_| random.below(3) as i32 - 1).collect();
        let readings = with_signs(&mut random, &signs);
        assert_eq!(taken(&readings, 0), pairing_of(counts_of(&signs)), "{readings:?}");
    }
    report("zeros among readings", close_counts().count() * COUNTED * 2 + COUNT);
}

/// The halves of 33 bits, of opposite sign within each; from one bit to the next there
/// are so many changes.
fn clean(random: &mut Random, changes: usize) -> Vec<f32> {
    let changes = random.places(changes, 32);
    let mut sign = with_any_sign(random, 1.0);
    let mut halves = Vec::new();
    for bit in 0..33 {
        halves.extend([sign, -sign].map(|sign| any_size(random) * sign));
        sign = if changes >> bit & 1 == 1 { -sign } else { sign };
    }
    halves
}

/// A clean board that begins with a bit is paired right. Of one that begins in the
/// middle of a bit the pairs between equal bits have opposite signs too: where no bit
/// changes they are 32, and the pairing is wrong.
#[test]
fn a_board_that_begins_in_the_middle_of_a_bit() {
    const ROUNDS: usize = 100;
    let mut random = Random::named("clean boards");
    for changes in 0..=32 {
        let expected = match changes {
            0 => Ok(0),
            1 => Err(EQUAL_PAIRINGS),
            _ => Ok(1),
        };
        for _ in 0..ROUNDS {
            let readings = clean(&mut random, changes);
            assert_eq!(taken(&readings, 0), Ok(0), "{changes} changes");
            assert_eq!(taken(&readings[1..], 0), expected, "{changes} changes, cut");
        }
    }
    report("clean boards, whole and cut", 2 * 33 * ROUNDS);
}

/// Where every other reading is a zero, or all have one sign, there is no pair.
#[test]
fn no_pair_of_opposite_sign() {
    for (one, other) in [
        (0.0, 1.0),
        (0.0, -1.0),
        (-0.0, 1.0),
        (-0.0, -1.0),
        (0.0, -0.0),
        (0.0, 0.0),
        (-0.0, -0.0),
        (1.0, 45.0),
        (-1.0, -45.0),
    ] {
        for readings in [[one, other].repeat(32), [other, one].repeat(50)] {
            assert_eq!(taken(&readings, 0), Err(EQUAL_PAIRINGS), "{one:?}, {other:?}");
        }
    }
}

/// Counts that give pairing 0, pairing 1 and none.
fn counts_for_each(random: &mut Random) -> [[usize; 2]; 3] {
    let [even, odd, both] = [MOST[0], MOST[1], MOST[1] + 1].map(|end| random.below(end));
    [[even + 1, random.below(even + 1)], [random.below(odd + 1), odd + 1], [both, both]]
}

/// What so many readings with these counts give in a slice of so many bytes.
fn expected(len: usize, counts: [usize; 2], room: usize) -> Result<(u8, usize), u8> {
    if len < COUNTED {
        return Err(TOO_FEW_READINGS);
    }
    let pairing = pairing_of(counts)?;
    let bits = (len - usize::from(pairing)) / 2;
    if room < bits {
        Err(NO_ROOM)
    } else {
        Ok((pairing, bits))
    }
}

/// Slices of every length, from nothing to some bytes more than the bits.
#[test]
fn every_length_of_readings_and_of_the_slice() {
    let mut random = Random::named("lengths of readings");
    let mut count = 0;
    for len in 60..=200 {
        for counts in counts_for_each(&mut random) {
            let readings = with_counts(&mut random, counts, len);
            for room in 0..=len / 2 + 5 {
                for polarity in [0, 1] {
                    let answer = deciding(&readings, 10.0, polarity, &vec![RUBBISH; room]);
                    let told = answer.map(|(pairing, bits)| (pairing, bits.len()));
                    assert_eq!(told, expected(len, counts, room), "{len}, {counts:?}, {room}");
                    count += 1;
                }
            }
        }
    }
    report("lengths of readings and of the slice", count);
}

/// Whatever lies in the slice before, bits stand in front of it, and the rest stays.
#[test]
fn slices_with_anything_in_them() {
    const COUNT: usize = 20_000;
    let mut random = Random::named("slices");
    for _ in 0..COUNT {
        let len = COUNTED + random.below(40);
        let counts = counts_for_each(&mut random)[random.below(2)];
        let readings = with_counts(&mut random, counts, len);
        let before: Vec<u8> = (0..len).map(|_| random.number() as u8).collect();
        let (_, bits) = deciding(&readings, 1.0, random.between(0, 1), &before).expect("room");
        assert!(bits.iter().all(|&bit| bit <= 1), "{bits:?}");
    }
    report("slices with anything in them", COUNT);
}
