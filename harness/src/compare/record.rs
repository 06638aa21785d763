//! Records and dates: each answer is the one on which both agree. An edition is
//! given as a number, which may name none.

use crate::face::{self, Date, Dated, Record, Recorded, Word};
use crate::independent::{calendar, record, Edition};

/// Compares the reading of a record.
pub fn reading_record(edition: impl Into<u16>, code: u8, word: u32) -> Result<Record, u8> {
    let number = edition.into();
    let expected = Edition::named(number).and_then(|edition| record::read(edition, code, word));
    let answer = face::read_record(number, code, word);
    assert_eq!(answer, Recorded::from(expected), "reading {code}, {word:#x}, edition {number}");
    expected
}

/// Compares the writing of a record.
pub fn writing_record(edition: impl Into<u16>, record: Record) -> Result<u32, u8> {
    let number = edition.into();
    let expected = Edition::named(number).and_then(|_| record::write(record));
    let answer = face::write_record(number, record);
    assert_eq!(answer, Word::from(expected), "writing {record:?}, edition {number}");
    expected
}

/// Compares the date of a record.
pub fn dating(edition: impl Into<u16>, record: Record, first_year: u16) -> Result<Date, u8> {
    let number = edition.into();
    let expected = Edition::named(number)
        .and_then(|edition| calendar::date_of_record(edition, record, first_year));
    let answer = face::date_of_record(number, record, first_year);
    assert_eq!(
        answer,
        Dated::from(expected),
        "date of {record:?}, first year {first_year}, edition {number}"
    );
    expected
}

/// Compares the record of a date.
pub fn recording(edition: impl Into<u16>, date: Date) -> Result<Record, u8> {
    let number = edition.into();
    let expected =
        Edition::named(number).and_then(|edition| calendar::record_of_date(edition, date));
    let answer = face::record_of_date(number, date);
    assert_eq!(answer, Recorded::from(expected), "record of {date:?}, edition {number}");
    expected
}

/// Compares the next minute of a record.
pub fn going_on(edition: impl Into<u16>, record: Record) -> Result<Record, u8> {
    let number = edition.into();
    let expected =
        Edition::named(number).and_then(|edition| calendar::next_minute(edition, record));
    let answer = face::next_minute(number, record);
    assert_eq!(answer, Recorded::from(expected), "minute after {record:?}, edition {number}");
    expected
}
