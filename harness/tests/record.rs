//! The library's time record against the independent program: words that are
//! read, and records that are written, under both editions.

use harness::compare::{reading_record, writing_record};
use harness::face::Record;
use harness::fields;
use harness::independent::{Edition, EDITIONS};
use harness::random::{report, Random};
use harness::refusals::{NOT_A_RECORD, OUT_OF_RANGE};

/// 1 January 1986, 12:34, one hour ahead, in 1984. A word has the same fields in
/// both editions.
const WORD: u32 = 0x4C16_C882;
const RECORD: Record =
    Record { leap: 2, start_day: 3, week: 1, weekday: 3, hour: 12, minute: 34, offset: 2 };

/// Words to start from: the first and last of all records, and others.
const STARTS: [u32; 5] = [WORD, 0x0412_0020, 0x7F5F_7EDF, 0, u32::MAX];

/// Lowest bit and width of each field: flag, leap code, start day, week,
/// weekday, hour, minute, offset.
const FIELDS: [(u32, u32); 8] =
    [(31, 1), (29, 2), (26, 3), (20, 6), (17, 3), (12, 5), (6, 6), (0, 6)];

/// Compares the reading of a word; a record must give the same word again.
fn read_and_write_again(edition: Edition, word: u32) -> Result<Record, u8> {
    let answer = reading_record(edition, 0, word);
    if let Ok(record) = answer {
        assert_eq!(writing_record(edition, record), Ok(word));
    }
    answer
}

/// Compares the writing of a record; its word must give the same record again.
fn write_and_read_again(edition: Edition, record: Record) -> Result<u32, u8> {
    let answer = writing_record(edition, record);
    if let Ok(word) = answer {
        assert_eq!(reading_record(edition, 0, word), Ok(record));
    }
    answer
}

#[test]
fn the_places_to_look() {
    for (edition, nothing_set, first_bit_set) in [
        (Edition::Of1984, OUT_OF_RANGE, NOT_A_RECORD),
        (Edition::Of1982, NOT_A_RECORD, OUT_OF_RANGE),
    ] {
        let read = |word| read_and_write_again(edition, word);
        assert_eq!(read(0), Err(nothing_set), "{edition:?}");
        assert_eq!(read(0x8000_0000), Err(first_bit_set), "{edition:?}");
        assert_eq!(read(0x4C16_CF02), Err(OUT_OF_RANGE), "minute 60");
        assert_eq!(read(WORD), Ok(RECORD));
        assert_eq!(read(0x4C16_C8BE), Ok(Record { offset: -2, ..RECORD }));
        let midnight = Record { hour: 0, minute: 0, offset: 0, ..RECORD };
        assert_eq!(read(0x4C16_0000), Ok(midnight));
    }
}

/// All values of the six bits that decide it, with others behind them: those that
/// the 1982 specification expects in a filler, and a record's own.
#[test]
fn which_words_are_fillers() {
    for six in 0..64 {
        for others in [0, 0x2AA_AAAA, 0x155_5555, 0x3FF_FFFF, WORD & 0x3FF_FFFF, 1, 1 << 25] {
            let word = six << 26 | others;
            let refusals = EDITIONS.map(|edition| read_and_write_again(edition, word).err());
            let fillers = refusals.map(|refusal| refusal == Some(NOT_A_RECORD));
            assert_eq!(fillers, [six >= 32, six == 0], "{word:#x}");
            if six >= 32 {
                assert_eq!(refusals[1], Some(OUT_OF_RANGE), "a set first bit, {word:#x}");
            }
        }
    }
}

#[test]
fn the_ends_of_every_range() {
    let first =
        Record { leap: 0, start_day: 1, week: 1, weekday: 1, hour: 0, minute: 0, offset: -32 };
    let last =
        Record { leap: 3, start_day: 7, week: 53, weekday: 7, hour: 23, minute: 59, offset: 31 };
    for edition in EDITIONS {
        assert_eq!(write_and_read_again(edition, first), Ok(STARTS[1]));
        assert_eq!(write_and_read_again(edition, last), Ok(STARTS[2]));
        for beyond in [
            Record { week: 54, ..last },
            Record { offset: 32, ..last },
            Record { offset: -33, ..first },
        ] {
            assert_eq!(writing_record(edition, beyond), Err(OUT_OF_RANGE));
        }
    }
}

#[test]
fn only_code_0_holds_a_record() {
    for edition in EDITIONS {
        for word in STARTS {
            for code in 1..=255 {
                assert_eq!(reading_record(edition, code, word), Err(NOT_A_RECORD));
            }
        }
    }
}

/// The word with every value of two of its fields.
fn two_fields_changed(word: u32) -> impl Iterator<Item = u32> {
    let all = |width: u32| (1 << width) - 1;
    let pairs = FIELDS.into_iter().flat_map(|field| FIELDS.map(|other| (field, other)));
    pairs.flat_map(move |((low, width), (other_low, other_width))| {
        let kept = word & !(all(width) << low | all(other_width) << other_low);
        (0..=all(width)).flat_map(move |value| {
            (0..=all(other_width)).map(move |other| kept | value << low | other << other_low)
        })
    })
}

#[test]
fn every_value_of_two_fields_of_a_word() {
    assert_eq!(FIELDS.iter().map(|(_, width)| width).sum::<u32>(), u32::BITS);
    let mut count = 0;
    for edition in EDITIONS {
        for word in STARTS.into_iter().flat_map(two_fields_changed) {
            let _ = read_and_write_again(edition, word);
            count += 1;
        }
    }
    println!("words with two fields changed: {count} compared");
}

#[test]
fn words_from_all_over() {
    // A step without a factor in common with any field's room.
    const STEP: usize = 1_021;
    for edition in EDITIONS {
        let mut refusals = [0; 7];
        for word in (0..=u32::MAX).step_by(STEP) {
            refusals[usize::from(read_and_write_again(edition, word).err().unwrap_or(0))] += 1;
        }
        // Half are fillers in 1984 and one in 64 is in 1982. About half of those
        // with a first bit 0 are records.
        let all: usize = refusals.iter().sum();
        let [records, others @ .., fillers, out_of_range] = refusals;
        let share = if edition == Edition::Of1984 { 2 } else { 64 };
        assert!(fillers.abs_diff(all / share) <= all / 1_000, "{edition:?}: {refusals:?}");
        assert!(records.min(out_of_range) > all / 5, "{edition:?}: {refusals:?}");
        assert_eq!(others, [0; 4], "{edition:?}");
        println!("words from all over: {all} compared, {edition:?}");
    }
}

#[test]
fn every_value_of_two_fields_of_a_record() {
    let mut count = 0;
    for edition in EDITIONS {
        for word in &STARTS[..3] {
            let record = reading_record(edition, 0, *word).expect("a record");
            for changed in fields::two_changed(record.bytes()) {
                let _ = write_and_read_again(edition, Record::of_bytes(changed));
                count += 1;
            }
        }
    }
    println!("records with two fields changed, written: {count} compared");
}

#[test]
fn ten_million_random_words_and_records() {
    const COUNT: usize = 10_000_000;
    let mut random = Random::named("records");
    for _ in 0..COUNT {
        let number = random.number();
        let record = random.record();
        let changed = Record::of_bytes(random.with_any_byte(record.bytes()));
        for edition in EDITIONS {
            let _ = read_and_write_again(edition, number as u32);
            let _ = reading_record(edition, (number >> 32) as u8, number as u32);
            assert!(write_and_read_again(edition, record).is_ok());
            let _ = writing_record(edition, changed);
        }
    }
    report("random words and records", COUNT);
}

/// The words that differ by one in the six bits after the code, and those that
/// differ in one bit.
fn neighbours(word: u32) -> impl Iterator<Item = u32> {
    let by_one = [1 << 26, u32::MAX << 26].map(|step| word.wrapping_add(step));
    by_one.into_iter().chain((0..u32::BITS).map(move |bit| word ^ 1 << bit))
}

#[test]
fn ten_million_random_words_and_their_neighbours() {
    const COUNT: usize = 10_000_000;
    let mut random = Random::named("neighbours");
    for _ in 0..COUNT {
        let word = random.number() as u32;
        for word in neighbours(word).chain([word]) {
            for edition in EDITIONS {
                let _ = reading_record(edition, 0, word);
            }
        }
    }
    report("random words of code 0, each with 34 neighbours", COUNT);
}
