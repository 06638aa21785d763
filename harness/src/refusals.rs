//! The numbers of documents 01 and 02 for what is refused.

pub const NOT_A_BIT: u8 = 1;
pub const WRONG_LENGTH: u8 = 2;
pub const WRONG_PREFIX: u8 = 3;
pub const WRONG_CHECK_WORD: u8 = 4;
pub const NOT_A_RECORD: u8 = 5;
pub const OUT_OF_RANGE: u8 = 6;
pub const NOT_IN_YEAR: u8 = 7;
pub const WRONG_YEAR: u8 = 8;
pub const RUN_TOO_LONG: u8 = 9;
pub const IMPROPER: u8 = 10;
pub const TOO_FEW_READINGS: u8 = 11;
pub const OUT_OF_DEGREES: u8 = 12;
pub const EQUAL_PAIRINGS: u8 = 13;
pub const NUMBER_TOO_WIDE: u8 = 14;
pub const NO_SUCH_CHANGE: u8 = 15;
pub const SEVERAL_CHANGES: u8 = 16;
pub const STRING_TOO_LONG: u8 = 17;
pub const NOT_A_REMAINDER: u8 = 18;
pub const WRONG_SIZE: u8 = 19;
pub const WRONG_FIXED_BITS: u8 = 20;
pub const NO_CODEWORD: u8 = 21;
pub const WRONG_CRC: u8 = 22;
pub const WRONG_TRAILER: u8 = 23;
pub const NOT_RISING: u8 = 24;
pub const TOO_MANY_BLOCKS: u8 = 30;
pub const NO_ROOM: u8 = 31;
