//! Writes what the test generator must write for YEAR MONTH DAY HOUR MINUTE
//! OFFSET MINUTES, each a number, in the edition of 1984.

use harness::face::Date;
use harness::feeds::plain;
use harness::independent::calendar::record_of_date;
use harness::independent::Edition;

fn main() {
    let numbers: Vec<i32> = std::env::args()
        .skip(1)
        .map(|text| text.parse().unwrap_or_else(|error| panic!("{text}: {error}")))
        .collect();
    let [year, month, day, hour, minute, offset, minutes] = numbers[..] else {
        panic!("expected seven numbers, got {}", numbers.len());
    };
    let date = Date {
        year: year as u16,
        month: month as u8,
        day: day as u8,
        hour: hour as u8,
        minute: minute as u8,
        offset: offset as i8,
    };
    let edition = Edition::Of1984;
    let record = record_of_date(edition, date).expect("a date that has a record");
    print!("{}", plain(edition, record, minutes as usize));
}
