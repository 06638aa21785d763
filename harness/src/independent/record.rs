//! The record's word as a number whose digits are the fields: each counts in
//! steps as large as all the values that the fields behind it have room for.

use super::Edition;
use crate::face::Record;
use crate::refusals::{NOT_A_RECORD, OUT_OF_RANGE};

/// How many values each field has room for: flag, leap code, start day, week,
/// weekday, hour, minute, offset.
const ROOM: [u32; 8] = [2, 4, 8, 64, 8, 32, 64, 64];

/// Whether every field is in its range.
pub fn in_range(record: &Record) -> bool {
    record.leap <= 3
        && (1..=7).contains(&record.start_day)
        && (1..=53).contains(&record.week)
        && (1..=7).contains(&record.weekday)
        && time_in_range(record.hour, record.minute, record.offset)
}

/// Whether the fields that a date has too are in their ranges.
pub fn time_in_range(hour: u8, minute: u8, offset: i8) -> bool {
    hour <= 23 && minute <= 59 && (-32..=31).contains(&offset)
}

/// The record of a code and a word, or the refusal.
pub fn read(edition: Edition, code: u8, word: u32) -> Result<Record, u8> {
    let mut rest = word;
    let mut digits = [0; ROOM.len()];
    for (digit, room) in digits.iter_mut().zip(ROOM).rev() {
        *digit = (rest % room) as u8;
        rest /= room;
    }
    let [flag, leap, start_day, week, weekday, hour, minute, offset] = digits;
    if code != 0 || edition.is_filler(word >> 26) {
        return Err(NOT_A_RECORD);
    }
    // The upper half of the offset's values stands for those below zero.
    let offset = if offset < 32 { offset as i8 } else { offset as i8 - 64 };
    let record = Record { leap, start_day, week, weekday, hour, minute, offset };
    if flag == 0 && in_range(&record) {
        Ok(record)
    } else {
        Err(OUT_OF_RANGE)
    }
}

/// The word of a record, or the refusal; the edition changes neither.
pub fn write(record: Record) -> Result<u32, u8> {
    if !in_range(&record) {
        return Err(OUT_OF_RANGE);
    }
    let Record { leap, start_day, week, weekday, hour, minute, offset } = record;
    let offset = offset.rem_euclid(64) as u8;
    let digits = [0, leap, start_day, week, weekday, hour, minute, offset];
    Ok(digits.iter().zip(ROOM).fold(0, |word, (&digit, room)| word * room + u32::from(digit)))
}
