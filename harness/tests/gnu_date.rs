//! The library's calendar against a program that nobody here wrote: GNU `date`
//! gives year, number and weekday of the week, and which years have a day 366.
//! From this each edition has its leap code.

use std::collections::{BTreeMap, BTreeSet};
use std::fs;
use std::path::Path;
use std::process::Command;

use harness::face::{self, Date, Dated, Record, Recorded};
use harness::independent::calendar::civil_days;
use harness::refusals::WRONG_YEAR;

/// 201 years, of which 49 are leap years: 1904 to 2096.
const DAYS: usize = 201 * 365 + 49;

/// Those of 199 years, the last of 1900 and the first three of 2100.
const DAYS_WITH_RECORD: usize = 1 + 199 * 365 + 49 + 3;

/// What GNU date says of a day.
struct Line {
    coded_year: u16,
    week: u8,
    weekday: u8,
    year: u16,
    month: u8,
    day: u8,
    day_of_year: u16,
}

/// One call for all days of 1900 to 2100.
fn ask_gnu_date() -> String {
    let list = Path::new(env!("CARGO_TARGET_TMPDIR")).join("days.txt");
    let days: String =
        civil_days().map(|date| format!("{}-{}-{}\n", date.year, date.month, date.day)).collect();
    fs::write(&list, days).expect("a list of days for GNU date");
    let output = Command::new("date")
        .env("LC_ALL", "C")
        .args(["-u", "-f"])
        .arg(&list)
        .arg("+%G %V %u %Y %m %d %j")
        .output()
        .unwrap_or_else(|error| panic!("this comparison needs GNU date: {error}"));
    let complaint = String::from_utf8_lossy(&output.stderr);
    assert!(output.status.success(), "this comparison needs GNU date, but date said: {complaint}");
    String::from_utf8(output.stdout).expect("text from GNU date")
}

fn line_of(text: &str) -> Line {
    let numbers: Vec<u16> = text.split(' ').map_while(|number| number.parse().ok()).collect();
    let [coded_year, week, weekday, year, month, day, day_of_year] = numbers[..] else {
        panic!("GNU date: expected seven numbers, got '{text}'");
    };
    let [week, weekday, month, day] = [week, weekday, month, day].map(|number| number as u8);
    Line { coded_year, week, weekday, year, month, day, day_of_year }
}

/// What the lines say of the years.
struct Years {
    leap: BTreeSet<u16>,
    start_days: BTreeMap<u16, u8>,
}

impl Years {
    fn of(lines: &[Line]) -> Self {
        let last_days = lines.iter().filter(|line| line.day_of_year == 366);
        let first_days = lines.iter().filter(|line| line.day_of_year == 1);
        Years {
            leap: last_days.map(|line| line.year).collect(),
            start_days: first_days.map(|line| (line.year, line.weekday)).collect(),
        }
    }

    /// The leap codes of 1984, as document 01 explains them, and of 1982, as the
    /// specification of that year does.
    fn leap_codes(&self, year: u16) -> [(u16, u8); 2] {
        if self.leap.contains(&year) {
            [(1984, 0), (1982, 0b11)]
        } else if year == 1901 || self.leap.contains(&(year - 1)) {
            [(1984, 1), (1982, 0b10)]
        } else if year == 2099 || self.leap.contains(&(year + 1)) {
            [(1984, 3), (1982, 0b01)]
        } else {
            [(1984, 2), (1982, 0b00)]
        }
    }
}

/// The library must answer with this record for the date, and with the date
/// for the record.
fn must_agree(edition: u16, date: Date, record: Record, coded_year: u16) {
    let recorded = face::record_of_date(edition, date);
    assert_eq!(recorded, Recorded::from(Ok(record)), "{date:?}, edition {edition}");
    let dated = face::date_of_record(edition, record, coded_year.min(2072));
    assert_eq!(dated, Dated::from(Ok(date)), "{record:?}, edition {edition}");
}

#[test]
fn every_day_as_gnu_date_has_it() {
    let text = ask_gnu_date();
    let lines: Vec<Line> = text.lines().map(line_of).collect();
    assert_eq!(lines.len(), DAYS);
    let years = Years::of(&lines);
    let (hour, minute, offset) = (12, 34, 2);
    let mut with_record = 0;
    for Line { coded_year, week, weekday, year, month, day, .. } in lines {
        let date = Date { year, month, day, hour, minute, offset };
        if (1901..=2099).contains(&coded_year) {
            let start_day = years.start_days[&coded_year];
            for (edition, leap) in years.leap_codes(coded_year) {
                let record = Record { leap, start_day, week, weekday, hour, minute, offset };
                must_agree(edition, date, record, coded_year);
            }
            with_record += 1;
        } else {
            let recorded = [1984, 1982].map(|edition| face::record_of_date(edition, date));
            assert_eq!(recorded, [Recorded::from(Err(WRONG_YEAR)); 2], "{date:?}");
        }
    }
    assert_eq!(with_record, DAYS_WITH_RECORD);
    println!(
        "days as GNU date has them, in both editions: {DAYS} compared, {with_record} with a record"
    );
}
