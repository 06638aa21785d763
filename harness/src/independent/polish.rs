//! The Polish time frame: fields cut from lists of bits, the field of sixteen
//! elements by its logarithms, and mending by a list of all that can be mended.
//!
//! Symbols side by side are one number, four bits each: the last is the lowest.

use std::collections::HashMap;
use std::sync::LazyLock;

use super::number_of;
use crate::face::Polish;
use crate::refusals::{NO_CODEWORD, WRONG_CRC, WRONG_FIXED_BITS, WRONG_SIZE};

/// Bytes in a frame.
pub const FRAME: usize = 12;

/// Symbols in a codeword.
pub const SYMBOLS: usize = 15;

/// With what bytes 4 to 8 are scrambled.
pub const KEY: u64 = 0x0A_47_55_4D_2B;

/// The bits before S0, which scrambling leaves as they are.
const ENTRY: u64 = 0b101;

/// All the bits that never change.
const FIXED: u64 = 0x55_55_60 << 3 | ENTRY;

/// How wide each part of a frame is: the fixed bits, nine symbols, SK1, six
/// check symbols, the CRC.
const PARTS: [usize; 5] = [27, 36, 1, 24, 8];

/// How wide each field of bytes 4 to 8 is: 101, the periods, TZ0 to SK1.
const FIELDS: [usize; 9] = [3, 30, 1, 1, 1, 1, 1, 1, 1];

/// The numbers that a list of bits holds, one behind the other.
fn cut<const N: usize>(mut bits: &[u8], widths: [usize; N]) -> [u64; N] {
    widths.map(|width| {
        let (number, rest) = bits.split_at(width);
        bits = rest;
        number_of(number)
    })
}

/// The list of bits that holds such numbers.
fn joined<const N: usize>(numbers: [u64; N], widths: [usize; N]) -> Vec<u8> {
    let mut bits = Vec::with_capacity(8 * FRAME);
    for (number, width) in numbers.into_iter().zip(widths) {
        bits.extend((0..width).rev().map(|place| (number >> place & 1) as u8));
    }
    bits
}

/// The powers of a, from 1 on; a^4 is a + 1. They come again after fifteen, and
/// stand here twice for the sake of added logarithms.
pub const POWERS: [u8; 30] = {
    let mut powers = [1; 30];
    let mut power = 1;
    while power < 30 {
        let doubled = powers[power - 1] << 1;
        powers[power] = if doubled > 15 { doubled ^ 0b1_0011 } else { doubled };
        power += 1;
    }
    powers
};

/// Which power of a each element is; 0 is none.
const LOGARITHMS: [usize; 16] = {
    let mut logarithms = [0; 16];
    let mut power = 0;
    while power < 15 {
        logarithms[POWERS[power] as usize] = power;
        power += 1;
    }
    logarithms
};

pub const fn times(one: u8, other: u8) -> u8 {
    if one == 0 || other == 0 {
        return 0;
    }
    POWERS[LOGARITHMS[one as usize] + LOGARITHMS[other as usize]]
}

/// The product of x + a^1 to x + a^6, its highest power first.
pub const GENERATOR: [u8; 7] = {
    let mut product = [0, 0, 0, 0, 0, 0, 1];
    let mut root = 1;
    while root <= 6 {
        let mut place = 0;
        while place < 7 {
            let shifted = if place < 6 { product[place + 1] } else { 0 };
            product[place] = shifted ^ times(product[place], POWERS[root]);
            place += 1;
        }
        root += 1;
    }
    product
};

/// What long division of fifteen symbols by the generator leaves.
fn remainder(word: u64) -> u64 {
    let mut symbols: [u8; SYMBOLS] =
        std::array::from_fn(|place| (word >> (4 * (SYMBOLS - 1 - place)) & 15) as u8);
    for first in 0..=SYMBOLS - GENERATOR.len() {
        let factor = symbols[first];
        for (symbol, coefficient) in symbols[first..].iter_mut().zip(GENERATOR) {
            *symbol ^= times(factor, coefficient);
        }
    }
    symbols.iter().fold(0, |number, &symbol| number << 4 | u64::from(symbol))
}

/// Every pattern of at most three wrong symbols, by the remainder it leaves.
static PATTERNS: LazyLock<HashMap<u64, u64>> = LazyLock::new(|| {
    let mut patterns = HashMap::new();
    take_in(&mut patterns, 0, SYMBOLS, 3);
    assert_eq!(patterns.len(), 1 + 15 * 15 + 105 * 225 + 455 * 3_375);
    patterns
});

/// Takes in a pattern, and those with up to `more` wrong symbols below `end`.
fn take_in(patterns: &mut HashMap<u64, u64>, pattern: u64, end: usize, more: usize) {
    let same = patterns.insert(remainder(pattern), pattern);
    assert_eq!(same, None, "{pattern:#x} is not the only one to leave its remainder");
    if more > 0 {
        for place in 0..end {
            for value in 1..16 {
                take_in(patterns, pattern | value << (4 * place), place, more - 1);
            }
        }
    }
}

/// What long division of a message times x^8 by x^8+x^2+x+1 leaves.
pub const fn crc(message: u64) -> u64 {
    let mut dividend = message << 8;
    while dividend >= 1 << 8 {
        dividend ^= 0b1_0000_0111 << (dividend.ilog2() - 8);
    }
    dividend
}

/// What a frame carries behind its fixed bits, scrambled as it is sent.
#[derive(Clone, Copy)]
pub struct Sent {
    /// All fifteen symbols.
    pub word: u64,
    pub sk1: u64,
    pub crc: u64,
}

impl Sent {
    /// What is sent for a time, each field of which fits.
    pub fn of_time(time: Polish) -> Self {
        let [tz0, tz1, ls, lss, tzc, sk0, sk1] = time.bytes().map(u64::from);
        let fields = [ENTRY, time.periods.into(), tz0, tz1, ls, lss, tzc, sk0, sk1];
        let [plain] = cut(&joined(fields, FIELDS), [40]);
        let [_, data, sk1] = cut(&joined([plain ^ KEY], [40]), [3, 36, 1]);
        let sent = Sent { word: data << 24 | remainder(data << 24), sk1, crc: 0 };
        Sent { crc: sent.right_crc(), ..sent }
    }

    /// What a frame carries, unless one of its fixed bits is wrong.
    fn of_frame(frame: [u8; FRAME]) -> Option<Self> {
        let bits = joined(frame.map(u64::from), [8; FRAME]);
        let [fixed, data, sk1, check, crc] = cut(&bits, PARTS);
        (fixed == FIXED).then_some(Sent { word: data << 24 | check, sk1, crc })
    }

    pub fn frame(self) -> [u8; FRAME] {
        let parts = [FIXED, self.word >> 24, self.sk1, self.word & 0xFF_FFFF, self.crc];
        cut(&joined(parts, PARTS), [8; FRAME]).map(|byte| byte as u8)
    }

    /// The same with the codeword that differs in at most three symbols, if
    /// there is one.
    pub fn mended(self) -> Option<Self> {
        let pattern = PATTERNS.get(&remainder(self.word))?;
        Some(Sent { word: self.word ^ pattern, ..self })
    }

    /// Bytes 4 to 8.
    fn message(self) -> u64 {
        ENTRY << 37 | self.word >> 24 << 1 | self.sk1
    }

    /// The CRC that belongs to bytes 4 to 8.
    pub fn right_crc(self) -> u64 {
        crc(self.message())
    }

    fn time(self) -> Polish {
        let [_, periods, flags @ ..] = cut(&joined([self.message() ^ KEY], [40]), FIELDS);
        Polish::of_bytes(periods as u32, flags.map(|flag| flag as u8))
    }
}

/// The time in a frame, or the refusal.
pub fn read(frame: &[u8]) -> Result<Polish, u8> {
    let frame = frame.try_into().map_err(|_| WRONG_SIZE)?;
    let sent = Sent::of_frame(frame).ok_or(WRONG_FIXED_BITS)?;
    let mended = sent.mended().ok_or(NO_CODEWORD)?;
    if mended.right_crc() == sent.crc {
        Ok(mended.time())
    } else {
        Err(WRONG_CRC)
    }
}

/// The frame to be written into a slice of `len`, or the refusal.
pub fn write(time: Polish, len: usize) -> Result<[u8; FRAME], u8> {
    let wide = time.periods >= 1 << 30 || time.bytes().iter().any(|&flag| flag > 1);
    if len != FRAME || wide {
        Err(WRONG_SIZE)
    } else {
        Ok(Sent::of_time(time).frame())
    }
}
