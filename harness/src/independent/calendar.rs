//! The calendar by walking: one day after the other from 1 January 1900, a
//! Monday, and by ISO 8601 one week after the other. Nothing here is found by a
//! formula. The editions share the walk, and each has its leap codes.

use std::collections::HashMap;
use std::iter::successors;
use std::ops::RangeInclusive;
use std::sync::LazyLock;

use super::record::{in_range, time_in_range};
use super::{Edition, EDITIONS};
use crate::face::{Date, Record};
use crate::refusals::{NOT_IN_YEAR, OUT_OF_RANGE, WRONG_YEAR};

/// The years in which the days that are asked about may lie.
const CIVIL_YEARS: RangeInclusive<u16> = 1900..=2100;

/// The years to which the weeks that a record can tell belong.
const CODED_YEARS: RangeInclusive<u16> = 1901..=2099;

/// The coded years that can be the first of 28.
pub const FIRST_YEARS: RangeInclusive<u16> = 1901..=2072;

/// Where the walk begins.
const FIRST: Date = Date { year: 1900, month: 1, day: 1, hour: 0, minute: 0, offset: 0 };

/// A day of the walk, with the year of its week. Its date and what would be its
/// record, the leap code apart, are those of 00:00 with offset 0.
struct Day {
    date: Date,
    coded_year: u16,
    told: Record,
}

/// An edition, and the four numbers by which its records name a day of a year.
type Place = (Edition, u8, u8, u8, u8);

/// The walked days, by their dates and, where they have records, by their places.
struct Calendar {
    days: Vec<Day>,
    by_date: HashMap<(u16, u8, u8), usize>,
    by_place: HashMap<Place, Vec<usize>>,
}

static CALENDAR: LazyLock<Calendar> = LazyLock::new(|| {
    // A year more, so that the last week is whole and has a day behind it.
    let walk = successors(Some(FIRST), |&date| Some(day_after(date)));
    let dates: Vec<Date> = walk.take_while(|date| date.year <= 2101).collect();
    let days = in_weeks(&dates);
    let mut by_date = HashMap::new();
    let mut by_place: HashMap<Place, Vec<usize>> = HashMap::new();
    for (index, day) in days.iter().enumerate() {
        by_date.insert((day.date.year, day.date.month, day.date.day), index);
        for edition in EDITIONS.into_iter().filter(|_| day.has_record()) {
            let place = place(edition, &day.record(edition));
            by_place.entry(place).or_default().push(index);
        }
    }
    Calendar { days, by_date, by_place }
});

impl Day {
    fn has_record(&self) -> bool {
        CODED_YEARS.contains(&self.coded_year)
    }

    fn record(&self, edition: Edition) -> Record {
        Record { leap: leap_code(edition, self.coded_year), ..self.told }
    }
}

/// The code that says whether this year, the last one or the next is leap. Only
/// here 1900 and 2100 count as leap, so that 1901 and 2099 have such a neighbour.
fn leap_code(edition: Edition, year: u16) -> u8 {
    let leap = |year| is_leap(year) || [1900, 2100].contains(&year);
    let neighbours = [year, year - 1, year + 1].map(leap);
    let place = neighbours.into_iter().position(|leap| leap);
    edition.leap_codes()[place.unwrap_or(neighbours.len())]
}

fn day_after(date: Date) -> Date {
    if date.day < length_of(date.month, date.year) {
        Date { day: date.day + 1, ..date }
    } else if date.month < 12 {
        Date { month: date.month + 1, day: 1, ..date }
    } else {
        Date { year: date.year + 1, month: 1, day: 1, ..date }
    }
}

/// The whole rule for leap years.
fn is_leap(year: u16) -> bool {
    let by = |count| year.is_multiple_of(count);
    by(4) && (!by(100) || by(400))
}

/// The days of a month.
fn length_of(month: u8, year: u16) -> u8 {
    match month {
        2 if is_leap(year) => 29,
        2 => 28,
        4 | 6 | 9 | 11 => 30,
        _ => 31,
    }
}

/// Successive days, the first a Monday, in whole weeks. The week that holds
/// 4 January is the first of that year.
fn in_weeks(dates: &[Date]) -> Vec<Day> {
    let weeks = dates.chunks_exact(7);
    let start_days = start_days(weeks.clone());
    let mut days = Vec::new();
    let mut coded_year = 0;
    let mut told = Record::default();
    for week in weeks {
        if let Some(fourth) = week.iter().find(|date| (date.month, date.day) == (1, 4)) {
            coded_year = fourth.year;
            told.start_day = start_days[&coded_year];
            told.week = 1;
        } else {
            told.week += 1;
        }
        let day = |(weekday, &date)| Day { date, coded_year, told: Record { weekday, ..told } };
        days.extend((1..).zip(week).map(day));
    }
    days
}

/// The weekday of 1 January of each year.
fn start_days<'a>(weeks: impl Iterator<Item = &'a [Date]>) -> HashMap<u16, u8> {
    let days = weeks.flat_map(|week| week.iter().zip(1..));
    let first_days = days.filter(|(date, _)| (date.month, date.day) == (1, 1));
    first_days.map(|(date, weekday)| (date.year, weekday)).collect()
}

fn place(edition: Edition, record: &Record) -> Place {
    (edition, record.leap, record.start_day, record.week, record.weekday)
}

/// The days, as places in the walk, that a record can mean.
fn days_of(edition: Edition, record: &Record) -> Option<&'static [usize]> {
    CALENDAR.by_place.get(&place(edition, record)).map(Vec::as_slice)
}

/// The place in the walk of a date's day.
fn day_of(date: Date) -> Option<usize> {
    CALENDAR.by_date.get(&(date.year, date.month, date.day)).copied()
}

/// Whether the fields are in range and the year has the week.
pub fn usable(edition: Edition, record: &Record) -> bool {
    in_range(record) && days_of(edition, record).is_some()
}

/// The date of a record within the 28 coded years from `first_year` on, or the
/// refusal.
pub fn date_of_record(edition: Edition, record: Record, first_year: u16) -> Result<Date, u8> {
    if !FIRST_YEARS.contains(&first_year) {
        return Err(WRONG_YEAR);
    }
    if !in_range(&record) {
        return Err(OUT_OF_RANGE);
    }
    let days = days_of(edition, &record).ok_or(NOT_IN_YEAR)?;
    let day = days
        .iter()
        .map(|&at| &CALENDAR.days[at])
        .find(|day| (first_year..first_year + 28).contains(&day.coded_year))
        .expect("any 28 successive years hold a year of each kind");
    let Record { hour, minute, offset, .. } = record;
    Ok(Date { hour, minute, offset, ..day.date })
}

/// The record of a date, or the refusal.
pub fn record_of_date(edition: Edition, date: Date) -> Result<Record, u8> {
    let Date { year, hour, minute, offset, .. } = date;
    if !CIVIL_YEARS.contains(&year) {
        return Err(WRONG_YEAR);
    }
    let at = day_of(date).ok_or(OUT_OF_RANGE)?;
    if !time_in_range(hour, minute, offset) {
        return Err(OUT_OF_RANGE);
    }
    let day = &CALENDAR.days[at];
    if !day.has_record() {
        return Err(WRONG_YEAR);
    }
    Ok(Record { hour, minute, offset, ..day.record(edition) })
}

/// The record of the minute after a record's own, or the refusal.
pub fn next_minute(edition: Edition, record: Record) -> Result<Record, u8> {
    if !in_range(&record) {
        return Err(OUT_OF_RANGE);
    }
    // Any year of its kind will do. The first one has years behind it.
    let at = days_of(edition, &record).ok_or(NOT_IN_YEAR)?[0];
    if record.minute < 59 {
        return Ok(Record { minute: record.minute + 1, ..record });
    }
    if record.hour < 23 {
        return Ok(Record { hour: record.hour + 1, minute: 0, ..record });
    }
    Ok(Record { offset: record.offset, ..CALENDAR.days[at + 1].record(edition) })
}

/// The next minute taken so many times, or the refusal.
pub fn minutes_later(edition: Edition, record: Record, count: usize) -> Result<Record, u8> {
    (0..count).try_fold(record, |told, _| next_minute(edition, told))
}

/// Every day of the civil years, at 00:00 with offset 0.
pub fn civil_days() -> impl Iterator<Item = Date> {
    CALENDAR.days.iter().map(|day| day.date).filter(|date| CIVIL_YEARS.contains(&date.year))
}

/// Every day that has a record, at 00:00 with offset 0.
pub fn days_with_record() -> impl Iterator<Item = Date> {
    CALENDAR.days.iter().filter(|day| day.has_record()).map(|day| day.date)
}

/// The year to which the week of a day in the civil years belongs.
pub fn coded_year(date: Date) -> u16 {
    CALENDAR.days[day_of(date).expect("a day of the walk")].coded_year
}

/// The minute after a date's own.
pub fn minute_after(date: Date) -> Date {
    if date.minute < 59 {
        Date { minute: date.minute + 1, ..date }
    } else if date.hour < 23 {
        Date { hour: date.hour + 1, minute: 0, ..date }
    } else {
        Date { hour: 0, minute: 0, ..day_after(date) }
    }
}
