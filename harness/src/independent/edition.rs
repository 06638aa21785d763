//! The two specifications that a sender may follow, and where their records
//! differ: in what makes a filler, and in how the leap code names a year. Weeks,
//! ranges and the order of the fields are the same.

use crate::face::Record;
use crate::refusals::OUT_OF_RANGE;

#[derive(Clone, Copy, Debug, PartialEq, Eq, Hash)]
pub enum Edition {
    Of1984,
    Of1982,
}

pub const EDITIONS: [Edition; 2] = [Edition::Of1984, Edition::Of1982];

impl Edition {
    /// The edition that a number names, or the refusal.
    pub fn named(number: u16) -> Result<Self, u8> {
        EDITIONS.into_iter().find(|edition| edition.number() == number).ok_or(OUT_OF_RANGE)
    }

    pub fn number(self) -> u16 {
        match self {
            Edition::Of1984 => 1984,
            Edition::Of1982 => 1982,
        }
    }

    pub fn other(self) -> Self {
        match self {
            Edition::Of1984 => Edition::Of1982,
            Edition::Of1982 => Edition::Of1984,
        }
    }

    /// Whether a block of code 0 is a filler, by the six bits after the code: flag,
    /// leap code and start day.
    pub fn is_filler(self, six: u32) -> bool {
        match self {
            Edition::Of1984 => six >= 32,
            Edition::Of1982 => six == 0,
        }
    }

    /// The leap codes for: this year is leap, last year was, next year is, none
    /// of these.
    pub fn leap_codes(self) -> [u8; 4] {
        match self {
            Edition::Of1984 => [0, 1, 3, 2],
            Edition::Of1982 => [3, 2, 1, 0],
        }
    }

    /// The record that tells here what this one tells in 1984. A leap code that
    /// there is in neither stays.
    pub fn telling(self, record: Record) -> Record {
        let mut kinds = Edition::Of1984.leap_codes().into_iter().zip(self.leap_codes());
        let same = kinds.find(|&(code, _)| code == record.leap);
        Record { leap: same.map_or(record.leap, |(_, code)| code), ..record }
    }
}

/// What a caller gives, right or wrong, is a number.
impl From<Edition> for u16 {
    fn from(edition: Edition) -> u16 {
        edition.number()
    }
}
