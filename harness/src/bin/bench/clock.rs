//! The calendar by hand, by a formula: the independent program's walk would cost
//! a receiver more at its start than some million bits.

use harness::face::Record;
use harness::independent::record::in_range;
use harness::independent::Edition;

/// Whether a leap code says that this year is leap.
fn is_leap(edition: Edition, leap: u8) -> bool {
    match edition {
        Edition::Of1984 => leap == 0,
        Edition::Of1982 => leap == 3,
    }
}

/// The leap code, in its range, of the year after.
fn next_leap(edition: Edition, leap: u8) -> u8 {
    match edition {
        Edition::Of1984 => (leap + 1) % 4,
        Edition::Of1982 => [1, 3, 0, 2][usize::from(leap)],
    }
}

/// The last week of a record's year.
fn last_week(edition: Edition, record: &Record) -> u8 {
    match record.start_day {
        4 => 53,
        3 if is_leap(edition, record.leap) => 53,
        _ => 52,
    }
}

/// Whether the fields are in range and the year has the week.
pub fn usable(edition: Edition, record: &Record) -> bool {
    in_range(record) && record.week <= last_week(edition, record)
}

/// The next minute of a usable record taken so many times.
pub fn minutes_later(edition: Edition, record: Record, count: u8) -> Record {
    (0..count).fold(record, |told, _| next_minute(edition, told))
}

fn next_minute(edition: Edition, record: Record) -> Record {
    match record {
        Record { minute: 0..59, .. } => Record { minute: record.minute + 1, ..record },
        Record { hour: 0..23, .. } => Record { hour: record.hour + 1, minute: 0, ..record },
        _ => next_day(edition, Record { hour: 0, minute: 0, ..record }),
    }
}

fn next_day(edition: Edition, record: Record) -> Record {
    if record.weekday < 7 {
        Record { weekday: record.weekday + 1, ..record }
    } else if record.week < last_week(edition, &record) {
        Record { week: record.week + 1, weekday: 1, ..record }
    } else {
        next_year(edition, Record { week: 1, weekday: 1, ..record })
    }
}

/// 365 days are a day more than whole weeks, and 366 are two.
fn next_year(edition: Edition, record: Record) -> Record {
    let more = if is_leap(edition, record.leap) { 2 } else { 1 };
    let start_day = (record.start_day - 1 + more) % 7 + 1;
    Record { leap: next_leap(edition, record.leap), start_day, ..record }
}
