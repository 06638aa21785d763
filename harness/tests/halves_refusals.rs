//! Request No. 1 against the library: what deciding refuses, in which order, and that
//! it then writes nothing.

use harness::compare::deciding;
use harness::face::{self, Decided};
use harness::independent::halves::COUNTED;
use harness::random::{report, Random};
use harness::readings::{special, units_from, with_counts, LARGEST, LARGEST_MARGIN};
use harness::refusals::{EQUAL_PAIRINGS, NO_ROOM, OUT_OF_DEGREES, OUT_OF_RANGE, TOO_FEW_READINGS};

/// Patterns of what is no number, quiet or not, with either sign and with more or less
/// in its fraction, and of the infinities.
const NOT_FINITE: [u32; 11] = [
    0x7F80_0000,
    0xFF80_0000,
    0x7FC0_0000,
    0xFFC0_0000,
    0x7F80_0001,
    0xFF80_0001,
    0x7FBF_FFFF,
    0x7FFF_FFFF,
    0xFFFF_FFFF,
    0x7FB4_0000,
    0xFFE5_A5A5,
];

/// The sign of a pattern.
const SIGN: u32 = 1 << 31;

/// Counts that give pairing 0, pairing 1 and none.
const EVEN: [usize; 2] = [20, 11];
const ODD: [usize; 2] = [11, 20];
const EQUAL: [usize; 2] = [15, 15];

/// What is not from `-LARGEST` to `LARGEST`.
fn no_readings() -> Vec<f32> {
    let above = [1, 2, 1 << 19].map(|units| units_from(LARGEST, units));
    let finite = above.into_iter().chain([64.0, LARGEST_MARGIN, 360.0, 1e10, f32::MAX]);
    let both = finite.flat_map(|number| [number, -number]);
    both.chain(NOT_FINITE.map(f32::from_bits)).collect()
}

/// What is not from 0 to 90.
fn no_margins() -> Vec<f32> {
    let above = [1, 2, 1 << 19].map(|units| units_from(LARGEST_MARGIN, units));
    let negative = [1, 2, 0x7F_FFFF, 0x80_0000].map(|pattern| -f32::from_bits(pattern));
    let far = [128.0, 360.0, f32::MAX, f32::MIN, -1.0, -LARGEST, -LARGEST_MARGIN];
    let finite = above.into_iter().chain(negative).chain(far);
    finite.chain(NOT_FINITE.map(f32::from_bits)).collect()
}

/// What is refused for its value, or taken, with room for all bits.
fn answer(readings: &[f32], margin: f32) -> Result<(), u8> {
    deciding(readings, margin, 0, &vec![0xA5; readings.len()]).map(drop)
}

/// Of an odd number of readings the last has no partner, in pairing 1 the first, and
/// of an even number there both: these are looked at all the same.
#[test]
fn no_reading_at_every_place() {
    let mut random = Random::named("no readings");
    let mut count = 0;
    for len in [64, 65, 66, 67, 129, 130] {
        for counts in [EVEN, ODD, EQUAL] {
            let readings = with_counts(&mut random, counts, len);
            for place in 0..len {
                for outside in no_readings() {
                    let mut readings = readings.clone();
                    readings[place] = outside;
                    let refused = answer(&readings, 1.0);
                    assert_eq!(refused, Err(OUT_OF_DEGREES), "{outside:?} at {place} of {len}");
                    count += 1;
                }
            }
        }
    }
    report("readings out of range", count);
}

/// What is in range is taken behind the 64th, where it has no part in the pairing, and
/// before it, if the counts are far enough apart.
#[test]
fn special_readings_at_every_place() {
    let mut random = Random::named("special readings at every place");
    let special = special(&mut random);
    let mut count = 0;
    for counts in [EVEN, ODD] {
        let readings = with_counts(&mut random, counts, 70);
        for place in 0..readings.len() {
            for &inside in &special {
                let mut readings = readings.clone();
                readings[place] = inside;
                assert_eq!(answer(&readings, 1.0), Ok(()), "{inside:?} at {place}");
                count += 1;
            }
        }
    }
    report("readings in range", count);
}

/// Patterns at random and around the bounds. Without its sign the pattern of a larger
/// number is larger, and what is no number has the largest.
fn patterns(name: &str, bound: f32, count: usize) -> Vec<u32> {
    let mut random = Random::named(name);
    let around = bound.to_bits() - 500..bound.to_bits() + 500;
    let both = around.chain(0..500).flat_map(|pattern| [pattern, pattern | SIGN]);
    both.chain((0..count).map(|_| random.number() as u32)).collect()
}

#[test]
fn any_pattern_as_a_reading() {
    let mut random = Random::named("places of patterns");
    let readings = with_counts(&mut random, EVEN, COUNTED + 2);
    let patterns = patterns("readings by their patterns", LARGEST, 200_000);
    for &pattern in &patterns {
        let expected = (pattern & !SIGN <= LARGEST.to_bits()).then_some(());
        let mut readings = readings.clone();
        readings[random.below(COUNTED + 2)] = f32::from_bits(pattern);
        assert_eq!(answer(&readings, 1.0), expected.ok_or(OUT_OF_DEGREES), "{pattern:#010x}");
    }
    report("patterns as readings", patterns.len());
}

#[test]
fn any_pattern_as_a_margin() {
    let readings = with_counts(&mut Random::named("with any margin"), ODD, COUNTED);
    let patterns = patterns("margins by their patterns", LARGEST_MARGIN, 200_000);
    for &pattern in &patterns {
        let is_margin = pattern <= LARGEST_MARGIN.to_bits() || pattern == SIGN;
        let expected = is_margin.then_some(()).ok_or(OUT_OF_DEGREES);
        assert_eq!(answer(&readings, f32::from_bits(pattern)), expected, "{pattern:#010x}");
    }
    for margin in no_margins() {
        assert_eq!(answer(&readings, margin), Err(OUT_OF_DEGREES), "{margin:?}");
    }
    report("patterns as margins", patterns.len());
}

#[test]
fn every_polarity() {
    let mut random = Random::named("polarities");
    for polarity in 0..=u8::MAX {
        let expected = if polarity <= 1 { Ok(()) } else { Err(OUT_OF_RANGE) };
        for counts in [EVEN, ODD] {
            let readings = with_counts(&mut random, counts, 70);
            let answer = deciding(&readings, 1.0, polarity, &[0xA5; 40]);
            assert_eq!(answer.map(drop), expected, "{polarity}");
        }
    }
    report("polarities", 2 * 256);
}

/// Fewer than 64 readings come before all but the polarity.
#[test]
fn too_few_readings() {
    let mut random = Random::named("too few readings");
    let mut count = 0;
    for len in 0..COUNTED {
        for counts in [EVEN, ODD, EQUAL] {
            let sound = with_counts(&mut random, counts, len);
            for readings in [sound, vec![f32::NAN; len], vec![0.0; len], vec![46.0; len]] {
                for margin in [0.0, 90.0, -1.0, f32::NAN] {
                    for room in [0, 31, 32, 100] {
                        let few = deciding(&readings, margin, 1, &vec![0xA5; room]);
                        assert_eq!(few, Err(TOO_FEW_READINGS), "{readings:?}, margin {margin:?}");
                        count += 1;
                    }
                }
            }
        }
    }
    report("too few readings", count);
}

/// A call that has some of the faults, in the order in which they count.
fn call_with(random: &mut Random, faults: u32) -> (Vec<f32>, f32, u8, Vec<u8>) {
    let has = |fault: u32| faults >> fault & 1 == 1;
    let polarity = if has(0) { 2 + random.below(254) as u8 } else { random.between(0, 1) };
    let len = if has(1) { random.below(COUNTED) } else { COUNTED + random.below(80) };
    let counts = if has(3) { EQUAL } else { [EVEN, ODD][random.below(2)] };
    let mut readings = with_counts(random, counts, len);
    let mut margin = random.below(90) as f32;
    // The margin alone, if there is no reading, or a reading alone, or both.
    let which = if len == 0 { 0 } else { random.below(3) };
    if has(2) && which != 1 {
        margin = no_margins()[random.below(no_margins().len())];
    }
    if has(2) && which != 0 {
        readings[random.below(len)] = no_readings()[random.below(no_readings().len())];
    }
    // Enough for the bits of pairing 0, or too little even for those of pairing 1.
    let enough = len / 2;
    let least = len.saturating_sub(1) / 2;
    let room = if has(4) { random.below(least.max(1)) } else { enough + random.below(5) };
    (readings, margin, polarity, vec![0xA5; room])
}

#[test]
fn which_of_several_faults_counts() {
    const ROUNDS: usize = 2_000;
    let order = [OUT_OF_RANGE, TOO_FEW_READINGS, OUT_OF_DEGREES, EQUAL_PAIRINGS, NO_ROOM];
    let mut random = Random::named("several faults of readings");
    for faults in 0..1 << order.len() {
        let first = (0..order.len()).find(|fault| faults >> fault & 1 == 1);
        let expected = first.map_or(Ok(()), |fault| Err(order[fault]));
        for _ in 0..ROUNDS {
            let (readings, margin, polarity, before) = call_with(&mut random, faults);
            let answer = deciding(&readings, margin, polarity, &before);
            assert_eq!(answer.map(drop), expected, "{faults:05b}");
        }
    }
    report("several faults at once", ROUNDS << order.len());
}

/// The numbers themselves, without the independent program.
#[test]
fn what_is_refused_tells_nothing_and_writes_nothing() {
    let sound = [1.0, -1.0, -1.0, 1.0].repeat(16);
    let equal = vec![1.0; 64];
    let outside = [&sound[..], &[45.5]].concat();
    for (readings, margin, polarity, room, refusal) in [
        (&sound[..], 1.0, 2, 32, 6),
        (&[], f32::NAN, 255, 0, 6),
        (&sound[..63], 1.0, 0, 32, 11),
        (&[], f32::NAN, 1, 0, 11),
        (&outside, 1.0, 0, 32, 12),
        (&sound, 90.5, 1, 32, 12),
        (&equal, -1.0, 0, 0, 12),
        (&equal, 1.0, 0, 32, 13),
        (&equal, 1.0, 1, 0, 13),
        (&sound, 1.0, 0, 31, 31),
        (&sound, 1.0, 1, 0, 31),
    ] {
        let mut lent = vec![7; room];
        let refused = Decided { refusal, pairing: 0, bits: 0 };
        let answer = face::decide(readings, margin, polarity, &mut lent);
        assert_eq!((answer, lent), (refused, vec![7; room]), "{refusal}");
    }
}

/// What is not refused, in numbers too.
#[test]
fn what_is_taken_tells_the_pairing_and_the_number_of_bits() {
    let sound = [1.0, -1.0, -1.0, 1.0].repeat(17);
    for (readings, pairing, first) in [(&sound[..], 0, 1), (&sound[1..], 1, 0)] {
        let mut lent = [7; 40];
        let bits = (readings.len() as u64 - u64::from(pairing)) / 2;
        let answer = face::decide(readings, 1.0, 0, &mut lent);
        assert_eq!(answer, Decided { refusal: 0, pairing, bits });
        let (front, rest) = lent.split_at(bits as usize);
        assert_eq!(rest, vec![7; rest.len()]);
        assert_eq!(front, &[first, 1 - first].repeat(20)[..front.len()]);
    }
}
