//! The time record and the date.

/// The fields of a time record; the offset is in half hours.
#[repr(C)]
#[derive(Clone, Copy, Debug, Default, PartialEq)]
pub struct Record {
    pub leap: u8,
    pub start_day: u8,
    pub week: u8,
    pub weekday: u8,
    pub hour: u8,
    pub minute: u8,
    pub offset: i8,
}

impl Record {
    /// The fields as bytes, in their order.
    pub fn bytes(self) -> [u8; 7] {
        let Record { leap, start_day, week, weekday, hour, minute, offset } = self;
        [leap, start_day, week, weekday, hour, minute, offset as u8]
    }

    pub fn of_bytes([leap, start_day, week, weekday, hour, minute, offset]: [u8; 7]) -> Self {
        Record { leap, start_day, week, weekday, hour, minute, offset: offset as i8 }
    }
}

/// A date in UTC with the offset beside it.
#[repr(C)]
#[derive(Clone, Copy, Debug, Default, PartialEq)]
pub struct Date {
    pub year: u16,
    pub month: u8,
    pub day: u8,
    pub hour: u8,
    pub minute: u8,
    pub offset: i8,
}

impl Date {
    /// The fields behind the year as bytes, in their order.
    pub fn bytes(self) -> [u8; 5] {
        let Date { year: _, month, day, hour, minute, offset } = self;
        [month, day, hour, minute, offset as u8]
    }

    pub fn of_bytes(year: u16, [month, day, hour, minute, offset]: [u8; 5]) -> Self {
        Date { year, month, day, hour, minute, offset: offset as i8 }
    }
}

#[repr(C)]
#[derive(Clone, Copy, Debug, PartialEq)]
pub struct Word {
    pub refusal: u8,
    pub word: u32,
}

#[repr(C)]
#[derive(Clone, Copy, Debug, PartialEq)]
pub struct Recorded {
    pub refusal: u8,
    pub record: Record,
}

#[repr(C)]
#[derive(Clone, Copy, Debug, PartialEq)]
pub struct Dated {
    pub refusal: u8,
    pub date: Date,
}

/// What an answer holds: 0 and the value, or the refusal and zeros.
pub(super) fn parts<T: Default>(answer: Result<T, u8>) -> (u8, T) {
    match answer {
        Ok(value) => (0, value),
        Err(refusal) => (refusal, T::default()),
    }
}

impl From<Result<u32, u8>> for Word {
    fn from(answer: Result<u32, u8>) -> Self {
        let (refusal, word) = parts(answer);
        Word { refusal, word }
    }
}

impl From<Result<Record, u8>> for Recorded {
    fn from(answer: Result<Record, u8>) -> Self {
        let (refusal, record) = parts(answer);
        Recorded { refusal, record }
    }
}

impl From<Result<Date, u8>> for Dated {
    fn from(answer: Result<Date, u8>) -> Self {
        let (refusal, date) = parts(answer);
        Dated { refusal, date }
    }
}

extern "C" {
    fn lw_read_record(edition: u16, code: u8, word: u32) -> Recorded;
    fn lw_write_record(edition: u16, record: Record) -> Word;
    fn lw_date_of_record(edition: u16, record: Record, first_year: u16) -> Dated;
    fn lw_record_of_date(edition: u16, date: Date) -> Recorded;
    fn lw_next_minute(edition: u16, record: Record) -> Recorded;
}

// Everything below goes by value, and the library answers any value, any number
// for an edition too.

/// Reads the record in a block's code and word.
pub fn read_record(edition: u16, code: u8, word: u32) -> Recorded {
    unsafe { lw_read_record(edition, code, word) }
}

/// The word of a record.
pub fn write_record(edition: u16, record: Record) -> Word {
    unsafe { lw_write_record(edition, record) }
}

/// The date of a record within the 28 coded years from `first_year` on.
pub fn date_of_record(edition: u16, record: Record, first_year: u16) -> Dated {
    unsafe { lw_date_of_record(edition, record, first_year) }
}

/// The record of a date.
pub fn record_of_date(edition: u16, date: Date) -> Recorded {
    unsafe { lw_record_of_date(edition, date) }
}

/// The record of the minute after a record's own.
pub fn next_minute(edition: u16, record: Record) -> Recorded {
    unsafe { lw_next_minute(edition, record) }
}
