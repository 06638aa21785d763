//! The library's calendar against the independent program: dates of records,
//! records of dates and the next minute, under both editions. Records below are
//! those of 1984; `Edition::telling` has them in the other edition too.

use std::collections::BTreeSet;
use std::ops::RangeInclusive;

use harness::compare::{dating, going_on, reading_record, recording, writing_record};
use harness::face::{Date, Record};
use harness::fields;
use harness::independent::calendar::{
    civil_days, coded_year, days_with_record, minute_after, FIRST_YEARS,
};
use harness::independent::{Edition, EDITIONS};
use harness::random::{report, Random};
use harness::refusals::{NOT_IN_YEAR, OUT_OF_RANGE, WRONG_YEAR};

/// Hours and minutes: the first and the last of a day, and one between.
const TIMES: [(u8, u8); 3] = [(0, 0), (12, 34), (23, 59)];

/// Wednesday 1 January 1986, 00:00.
const DATE: Date = Date { year: 1986, month: 1, day: 1, hour: 0, minute: 0, offset: 0 };
const RECORD: Record =
    Record { leap: 2, start_day: 3, week: 1, weekday: 3, hour: 0, minute: 0, offset: 0 };

/// Week 53 in a year without one.
const NO_WEEK: Record = Record { week: 53, ..RECORD };

/// The coded years of all records, and how many of them have 53 weeks.
const CODED_YEARS: RangeInclusive<u16> = 1901..=2099;
const LONG_YEARS: usize = 36;

fn midnight(year: u16, month: u8, day: u8) -> Date {
    Date { year, month, day, ..DATE }
}

/// A record at 00:00 with offset 0.
fn place(leap: u8, start_day: u8, week: u8, weekday: u8) -> Record {
    Record { leap, start_day, week, weekday, ..RECORD }
}

/// First years whose 28 years hold the coded year of a date.
fn holding(date: Date) -> RangeInclusive<u16> {
    let year = coded_year(date);
    (year - 27).max(*FIRST_YEARS.start())..=year.min(*FIRST_YEARS.end())
}

#[test]
fn the_places_to_look() {
    // The words of 1984 and of 1982.
    for (words, (hour, minute), offset) in [
        ([0x4C16_0000, 0x0C16_0000], (0, 0), 0),
        ([0x4C16_C882, 0x0C16_C882], (12, 34), 2),
        ([0x4C16_C8BE, 0x0C16_C8BE], (12, 34), -2),
    ] {
        for (edition, word) in EDITIONS.into_iter().zip(words) {
            let record = reading_record(edition, 0, word).expect("a record");
            let date = Date { hour, minute, offset, ..DATE };
            assert_eq!(record, edition.telling(Record { hour, minute, offset, ..RECORD }));
            assert_eq!(dating(edition, record, 1970), Ok(date));
            assert_eq!(recording(edition, date), Ok(record));
        }
    }
    for edition in EDITIONS {
        let last_minute = edition.telling(Record { hour: 23, minute: 59, ..NO_WEEK });
        assert_eq!(going_on(edition, last_minute), Err(NOT_IN_YEAR));
        for (first_year, refusal) in [(1900, 8), (1901, 0), (2072, 0), (2073, 8)] {
            let record = edition.telling(RECORD);
            assert_eq!(dating(edition, record, first_year).err().unwrap_or(0), refusal);
        }
    }
}

#[test]
fn days_around_new_year() {
    // The leap codes of 1984 and of 1982.
    for (date, leap_codes, start_day, week, weekday) in [
        (midnight(2012, 12, 30), [0, 3], 7, 52, 7),
        (midnight(2012, 12, 31), [1, 2], 2, 1, 1),
        (midnight(1982, 1, 1), [1, 2], 4, 53, 5),
        (midnight(1982, 1, 4), [2, 0], 5, 1, 1),
        (midnight(1983, 1, 3), [3, 1], 6, 1, 1),
        (midnight(1900, 12, 31), [1, 2], 2, 1, 1),
        (midnight(2100, 1, 1), [3, 1], 4, 53, 5),
        (midnight(2100, 1, 2), [3, 1], 4, 53, 6),
        (midnight(2100, 1, 3), [3, 1], 4, 53, 7),
    ] {
        for (edition, leap) in EDITIONS.into_iter().zip(leap_codes) {
            let record = place(leap, start_day, week, weekday);
            assert_eq!(recording(edition, date), Ok(record), "{date:?}, {edition:?}");
            assert_eq!(dating(edition, record, *holding(date).start()), Ok(date));
        }
    }
}

#[test]
fn after_the_last_minute_of_a_year() {
    for (last, first) in [
        // 1986 and 2012 have 52 weeks; 1981, 1992 and 2004 have 53.
        (place(2, 3, 52, 7), place(3, 4, 1, 1)),
        (place(0, 7, 52, 7), place(1, 2, 1, 1)),
        (place(1, 4, 53, 7), place(2, 5, 1, 1)),
        (place(0, 3, 53, 7), place(1, 5, 1, 1)),
        (place(0, 4, 53, 7), place(1, 6, 1, 1)),
        // 2099 has 53 too. To a record 2100 is a leap year.
        (place(3, 4, 53, 7), place(0, 5, 1, 1)),
        // In a year of 53 weeks week 52 is not the last.
        (place(1, 4, 52, 7), place(1, 4, 53, 1)),
    ] {
        for edition in EDITIONS {
            for offset in [-32, 0, 31] {
                let last = edition.telling(Record { hour: 23, minute: 59, offset, ..last });
                let first = edition.telling(Record { offset, ..first });
                assert_eq!(going_on(edition, last), Ok(first));
            }
        }
    }
}

#[test]
fn the_tests_of_a_record_come_in_their_order() {
    for edition in EDITIONS {
        let no_week = edition.telling(NO_WEEK);
        let no_hour = Record { hour: 24, ..no_week };
        assert_eq!(dating(edition, no_week, 1970), Err(NOT_IN_YEAR));
        assert_eq!(dating(edition, no_week, 1900), Err(WRONG_YEAR));
        assert_eq!(dating(edition, no_hour, 1970), Err(OUT_OF_RANGE));
        assert_eq!(dating(edition, no_hour, 1900), Err(WRONG_YEAR));
        assert_eq!(going_on(edition, no_week), Err(NOT_IN_YEAR));
        assert_eq!(going_on(edition, no_hour), Err(OUT_OF_RANGE));
        assert!(writing_record(edition, no_week).is_ok(), "the week is not tested");
    }
}

/// First the civil year, then what is out of range, then the coded year.
#[test]
fn the_tests_of_a_date_come_in_their_order() {
    let mut refused = Vec::new();
    for bad in [Date { hour: 24, ..DATE }, Date { minute: 60, ..DATE }, Date { offset: 32, ..DATE }]
    {
        for (year, month, day, refusal) in [
            (1899, 12, 31, WRONG_YEAR),
            (1900, 12, 30, OUT_OF_RANGE),
            (1900, 12, 31, OUT_OF_RANGE),
            (2100, 1, 3, OUT_OF_RANGE),
            (2100, 1, 4, OUT_OF_RANGE),
            (2101, 1, 1, WRONG_YEAR),
        ] {
            refused.push((Date { year, month, day, ..bad }, refusal));
        }
    }
    refused.extend([
        (midnight(1899, 2, 29), WRONG_YEAR),
        (midnight(1900, 2, 29), OUT_OF_RANGE),
        (midnight(1900, 12, 30), WRONG_YEAR),
        (midnight(2100, 1, 4), WRONG_YEAR),
        (midnight(2100, 2, 29), OUT_OF_RANGE),
        (midnight(2101, 2, 29), WRONG_YEAR),
    ]);
    for (date, refusal) in refused {
        for edition in EDITIONS {
            assert_eq!(recording(edition, date), Err(refusal), "{date:?}, {edition:?}");
        }
    }
}

#[test]
fn which_days_have_records() {
    let mut counts = [0; 2];
    for date in civil_days() {
        let day = (date.year, date.month, date.day);
        let has_record = ((1900, 12, 31)..=(2100, 1, 3)).contains(&day);
        let refusal = (!has_record).then_some(WRONG_YEAR);
        for edition in EDITIONS {
            assert_eq!(recording(edition, date).err(), refusal, "{date:?}, {edition:?}");
        }
        counts[usize::from(has_record)] += 1;
    }
    // All but one day of 1900; of the other years 49 are leap, 1904 to 2096.
    assert_eq!(counts, [364 + 362, 1 + 199 * 365 + 49 + 3]);
}

/// The years in which a Thursday of week 53 lies: every week has its Thursday in
/// its own year.
fn years_with_week_53(edition: Edition) -> BTreeSet<u16> {
    let records =
        days_with_record().filter_map(|date| Some((date.year, recording(edition, date).ok()?)));
    let thursdays = records.filter(|(_, record)| (record.week, record.weekday) == (53, 4));
    thursdays.map(|(year, _)| year).collect()
}

/// Whether a year starts on a Thursday, or is leap and starts on a Wednesday.
fn must_have_week_53(edition: Edition, year: u16) -> bool {
    let first = recording(edition, midnight(year, 1, 1)).expect("a record");
    let leap = recording(edition, midnight(year, 2, 29)).is_ok();
    first.weekday == 4 || leap && first.weekday == 3
}

#[test]
fn thirty_six_years_have_53_weeks() {
    for edition in EDITIONS {
        let years = years_with_week_53(edition);
        let expected = CODED_YEARS.filter(|&year| must_have_week_53(edition, year));
        assert!(expected.eq(years.iter().copied()), "{edition:?}");
        assert_eq!(years.len(), LONG_YEARS);
        assert!(years.contains(&1981));
    }
}

#[test]
fn every_year_has_whole_weeks_in_their_order() {
    for edition in EDITIONS {
        let records = days_with_record().filter_map(|day| recording(edition, day).ok());
        must_be_whole_weeks(records.collect());
    }
}

fn must_be_whole_weeks(records: Vec<Record>) {
    for seven in records.chunks(7) {
        let week = (1..=7).map(|weekday| Record { weekday, ..seven[0] });
        assert!(week.eq(seven.iter().copied()), "{seven:?}");
    }
    let mondays: Vec<Record> = records.into_iter().step_by(7).collect();
    for pair in mondays.windows(2) {
        let [week, next] = [pair[0], pair[1]];
        let goes_on = next == Record { week: week.week + 1, ..week };
        let ends = week.week >= 52 && next.week == 1;
        assert!(goes_on || ends, "{pair:?}");
    }
    assert_eq!(mondays.len(), 199 * 52 + LONG_YEARS);
    let first_weeks = mondays.iter().filter(|monday| monday.week == 1);
    assert_eq!(first_weeks.count(), 199);
}

/// Takes a date to its record, the record to its word, and both back again.
fn there_and_back(edition: Edition, date: Date) -> Record {
    let record = recording(edition, date).expect("a record");
    let word = writing_record(edition, record).expect("a word");
    assert_eq!(reading_record(edition, 0, word), Ok(record));
    let held = holding(date);
    for first_year in held.clone() {
        assert_eq!(dating(edition, record, first_year), Ok(date));
    }
    for first_year in [held.start() - 1, held.end() + 1, 1901, 2072, 1900, 2073, 0, 65_535] {
        assert_eq!(dating(edition, record, first_year) == Ok(date), held.contains(&first_year));
    }
    record
}

/// The record's next minute must be the record of the date's next minute.
fn must_go_on(edition: Edition, date: Date, record: Record) {
    let after = minute_after(date);
    let expected = if (after.year, after.month, after.day) == (2100, 1, 4) {
        // 2100 begins on a Friday. To a record it is a leap year.
        Ok(edition.telling(Record { offset: record.offset, ..place(0, 5, 1, 1) }))
    } else {
        recording(edition, after)
    };
    assert!(expected.is_ok(), "{after:?}");
    assert_eq!(going_on(edition, record), expected);
}

#[test]
fn every_day() {
    let mut random = Random::named("days");
    let mut count = 0;
    for day in days_with_record() {
        for (hour, minute) in TIMES {
            let date = Date { hour, minute, offset: random.offset(), ..day };
            for edition in EDITIONS {
                must_go_on(edition, date, there_and_back(edition, date));
                count += 1;
            }
        }
    }
    report("dates at three times of every day", count);
}

/// The minutes of a day must go on one after the other; gives how many there are.
fn minutes_must_go_on(edition: Edition, day: Date) -> usize {
    let record = recording(edition, day).expect("a record");
    let minutes = (0..24).flat_map(|hour| (0..60).map(move |minute| (hour, minute)));
    let go_on = |(hour, minute)| {
        must_go_on(edition, Date { hour, minute, ..day }, Record { hour, minute, ..record });
    };
    minutes.map(go_on).count()
}

#[test]
fn every_minute_of_every_kind_of_year() {
    let mut count = 0;
    for edition in EDITIONS {
        // 28 successive years hold every kind.
        for day in days_with_record().take_while(|&day| coded_year(day) < 1901 + 28) {
            count += minutes_must_go_on(edition, day);
        }
    }
    println!("minutes of every kind of year: {count} compared");
}

/// Every combination of values in range and some beyond.
fn combinations() -> impl Iterator<Item = Record> {
    let weeks = || (0..=54).chain([63, 255]);
    let years = (0..=4).flat_map(|leap| (0..=8).map(move |start_day| (leap, start_day)));
    years.flat_map(move |(leap, start_day)| {
        weeks()
            .flat_map(move |week| (0..=8).map(move |weekday| place(leap, start_day, week, weekday)))
    })
}

#[test]
fn every_place_in_every_kind_of_year() {
    let mut count = 0;
    for edition in EDITIONS {
        for record in combinations() {
            for (hour, minute) in TIMES {
                let record = Record { hour, minute, ..record };
                let _ = writing_record(edition, record);
                let _ = going_on(edition, record);
            }
            for first_year in (1890..=2080).chain([0, 65_535]) {
                if let Ok(date) = dating(edition, record, first_year) {
                    assert_eq!(recording(edition, date), Ok(record));
                }
                count += 1;
            }
        }
    }
    println!("places in every kind of year: {count} compared");
}

/// The leap code of a leap year, as the documents have it.
const LEAP: [(Edition, u8); 2] = [(Edition::Of1984, 0), (Edition::Of1982, 3)];

#[test]
fn all_that_is_in_range_is_usable_but_a_week_53_too_many() {
    let in_range = |record: &Record| {
        (0..=3).contains(&record.leap)
            && (1..=7).contains(&record.start_day)
            && (1..=53).contains(&record.week)
            && (1..=7).contains(&record.weekday)
    };
    for (edition, leap_year) in LEAP {
        let mut refused = 0;
        for record in combinations().filter(in_range) {
            let long = record.start_day == 4 || (record.leap, record.start_day) == (leap_year, 3);
            let refusal = (record.week == 53 && !long).then_some(NOT_IN_YEAR);
            assert_eq!(going_on(edition, record).err(), refusal, "{record:?}, {edition:?}");
            assert_eq!(dating(edition, record, 1901).err(), refusal, "{record:?}, {edition:?}");
            refused += usize::from(refusal.is_some());
        }
        assert_eq!(refused, (28 - 5) * 7, "{edition:?}");
    }
}

#[test]
fn every_first_year() {
    let kinds = (0..=3).flat_map(|leap| (1..=7).map(move |start_day| (leap, start_day)));
    let records: Vec<Record> =
        kinds.map(|(leap, start_day)| Record { leap, start_day, week: 26, ..RECORD }).collect();
    for (edition, first_year) in
        EDITIONS.into_iter().flat_map(|edition| (0..=65_535).map(move |year| (edition, year)))
    {
        let years: BTreeSet<u16> = records
            .iter()
            .filter_map(|&record| dating(edition, record, first_year).ok())
            .map(|date| date.year)
            .collect();
        // Each kind names a year of its own.
        if FIRST_YEARS.contains(&first_year) {
            assert!(years.into_iter().eq(first_year..first_year + 28));
        }
    }
}

#[test]
fn every_value_of_two_fields_of_a_record() {
    // The last day of a leap year of 53 weeks, and the last minute of a common
    // year of 52.
    let last_day = place(0, 3, 53, 7);
    let last_minute = Record { hour: 23, minute: 59, offset: -32, ..place(2, 3, 52, 7) };
    let mut count = 0;
    for edition in EDITIONS {
        for record in [RECORD, last_day, last_minute].map(|record| edition.telling(record)) {
            for changed in fields::two_changed(record.bytes()).map(Record::of_bytes) {
                for first_year in [1970, 1900] {
                    let _ = dating(edition, changed, first_year);
                }
                let _ = going_on(edition, changed);
                count += 1;
            }
        }
    }
    println!("records with two fields changed, dated: {count} compared");
}

#[test]
fn every_value_of_two_fields_of_a_date() {
    let mut count = 0;
    // Leap years and others, the ends of the range, and years beyond it.
    for year in [1901, 1904, 1986, 2000, 2012, 2099, 1900, 2100, 1899, 2101] {
        for (month, day, hour, minute) in [(2, 29, 0, 0), (12, 31, 23, 59), (1, 3, 23, 59)] {
            let bytes = Date { year, month, day, hour, minute, offset: -32 }.bytes();
            for changed in fields::two_changed(bytes) {
                for edition in EDITIONS {
                    let answer = recording(edition, Date::of_bytes(year, changed));
                    assert_ne!(answer, Err(NOT_IN_YEAR), "7 is never an answer in writing");
                    count += 1;
                }
            }
        }
    }
    println!("dates with two fields changed: {count} compared");
}

#[test]
fn every_year_there_can_be() {
    const DAYS: [(u8, u8); 9] =
        [(1, 1), (1, 4), (2, 28), (2, 29), (3, 1), (12, 30), (12, 31), (13, 1), (4, 31)];
    for year in 0..=65_535 {
        let refusals = |edition| {
            let answers = DAYS.map(|(month, day)| recording(edition, midnight(year, month, day)));
            answers.map(|answer| answer.err().unwrap_or(0))
        };
        let expected = match year {
            1900 => [8, 8, 8, 6, 8, 8, 0, 6, 6],
            1901..=2099 if year % 4 == 0 => [0, 0, 0, 0, 0, 0, 0, 6, 6],
            1901..=2099 => [0, 0, 0, 6, 0, 0, 0, 6, 6],
            2100 => [0, 8, 8, 6, 8, 8, 8, 6, 6],
            _ => [8; DAYS.len()],
        };
        assert_eq!(EDITIONS.map(refusals), [expected; 2], "{year}");
    }
}

#[test]
fn ten_million_random_records_and_dates() {
    const COUNT: usize = 10_000_000;
    let mut random = Random::named("dates");
    let mut dated = [0; 9];
    let mut recorded = [0; 9];
    for _ in 0..COUNT {
        let record = random.record();
        let changed = Record::of_bytes(random.with_any_byte(record.bytes()));
        let first_year = 1895 + random.below(185) as u16;
        let date = random.date();
        let changed_date = Date::of_bytes(date.year, random.with_any_byte(date.bytes()));
        for edition in EDITIONS {
            for record in [record, changed] {
                let _ = going_on(edition, record);
                let refusal = dating(edition, record, first_year).err().unwrap_or(0);
                dated[usize::from(refusal)] += 1;
            }
            for date in [date, changed_date] {
                let answer = recording(edition, date);
                recorded[usize::from(answer.err().unwrap_or(0))] += 1;
                if let Ok(record) = answer {
                    assert_eq!(dating(edition, record, *holding(date).start()), Ok(date));
                }
            }
        }
    }
    // None of the kinds may have been left out, and 7 is no answer in writing.
    let seen = |counts: [usize; 9]| counts.map(|count| count > COUNT / 50);
    assert_eq!(seen(dated), [true, false, false, false, false, false, true, true, true]);
    assert_eq!(seen(recorded), [true, false, false, false, false, false, true, false, true]);
    assert_eq!(recorded[usize::from(NOT_IN_YEAR)], 0);
    report("random records and dates", COUNT);
}
