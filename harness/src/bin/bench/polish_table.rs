//! The Polish frame as firmware has it: check symbols and CRC by tables, and where
//! check symbols differ logarithms, power sums by Horner's rule, the locator after
//! Berlekamp and Massey, its roots by Chien's search, values by Forney's formula.

use harness::face::{Polish, PolishAnswer};
use harness::independent::polish::{crc, times, FRAME, GENERATOR, KEY, POWERS, SYMBOLS};
use harness::refusals::{NO_CODEWORD, WRONG_CRC, WRONG_FIXED_BITS, WRONG_SIZE};

const SYNC: [u8; 3] = [0x55, 0x55, 0x60];

/// The wrong symbols that can be mended.
const MOST: usize = 3;

/// Elements by their logarithms. Any sum with the logarithm of 0 finds a 0.
const ELEMENTS: [u8; 64] = {
    let mut elements = [0; 64];
    let mut power = 0;
    while power < POWERS.len() {
        elements[power] = POWERS[power];
        power += 1;
    }
    elements
};

const LOGARITHMS: [u8; 16] = {
    let mut logarithms = [POWERS.len() as u8; 16];
    let mut power = 0;
    while power < 15 {
        logarithms[POWERS[power] as usize] = power as u8;
        power += 1;
    }
    logarithms
};

/// What each leading symbol leaves of its multiple of the generator.
const CHECKS: [u32; 16] = {
    let mut checks = [0; 16];
    let mut lead = 0;
    while lead < 16 {
        let mut place = 1;
        while place < GENERATOR.len() {
            checks[lead] = checks[lead] << 4 | times(lead as u8, GENERATOR[place]) as u32;
            place += 1;
        }
        lead += 1;
    }
    checks
};

/// The CRC of each byte.
const CRCS: [u8; 256] = {
    let mut crcs = [0; 256];
    let mut byte = 0;
    while byte < 256 {
        crcs[byte] = crc(byte as u64) as u8;
        byte += 1;
    }
    crcs
};

fn logarithm(element: u8) -> usize {
    usize::from(LOGARITHMS[usize::from(element & 15)])
}

/// An element times a power of a, up to the fifteenth.
fn raised(element: u8, power: usize) -> u8 {
    ELEMENTS[(logarithm(element) + power) & 63]
}

fn product(one: u8, other: u8) -> u8 {
    raised(one, logarithm(other))
}

/// The other is not 0.
fn quotient(one: u8, other: u8) -> u8 {
    raised(one, 15 - logarithm(other))
}

/// The check symbols of nine symbols.
fn checks_of(data: u64) -> u32 {
    let mut check = 0;
    for place in (0..9).rev() {
        let lead = check >> 20 ^ (data >> (4 * place) & 15) as u32;
        check = (check << 4 & 0xFF_FFFF) ^ CHECKS[lead as usize];
    }
    check
}

/// The sums of a word, from what its six check symbols miss.
fn power_sums(missing: u32) -> [u8; 2 * MOST] {
    let mut sums = [0; 2 * MOST];
    for place in (0..6).rev() {
        let symbol = (missing >> (4 * place)) as u8 & 15;
        for (sum, power) in sums.iter_mut().zip(1..) {
            *sum = raised(*sum, power) ^ symbol;
        }
    }
    sums
}

/// The shortest recurrence that the sums follow, with its length, unless that is
/// more than can be mended.
fn locator(sums: &[u8; 2 * MOST]) -> Option<([u8; MOST + 1], usize)> {
    let mut locator = [1, 0, 0, 0];
    let mut former = locator;
    let mut len = 0;
    for place in 0..sums.len() {
        former = [0, former[0], former[1], former[2]];
        let pairs = locator.iter().zip(sums[..=place].iter().rev());
        let gap = pairs.fold(0, |gap, (&term, &sum)| gap ^ product(term, sum));
        if gap == 0 {
            continue;
        }
        let mut next = locator;
        for (term, old) in next.iter_mut().zip(former) {
            *term ^= product(gap, old);
        }
        if 2 * len <= place {
            len = place + 1 - len;
            if len > MOST {
                return None;
            }
            former = locator.map(|term| quotient(term, gap));
        }
        locator = next;
    }
    Some((locator, len))
}

/// The places whose inverses are roots, if these are as many as it is long.
fn places(locator: [u8; MOST + 1], len: usize) -> Option<[usize; MOST]> {
    let mut places = [0; MOST];
    let mut found = 0;
    let mut terms = locator;
    for place in 0..SYMBOLS {
        if terms.iter().fold(0, |sum, term| sum ^ term) == 0 {
            places[found] = place;
            found += 1;
            if found == len {
                return Some(places);
            }
        }
        for (term, power) in terms.iter_mut().zip(0..).skip(1) {
            *term = raised(*term, 15 - power);
        }
    }
    None
}

/// The pattern of wrong symbols. A recurrence with as many roots as it is long
/// gives all six sums, and the shortest one leaves no value 0, so that nothing
/// has to be tested again.
fn pattern(sums: &[u8; 2 * MOST]) -> Option<u64> {
    let (locator, len) = locator(sums)?;
    let places = places(locator, len)?;
    let [_, first, second, third] = locator;
    let linear = sums[1] ^ product(first, sums[0]);
    let quadratic = sums[2] ^ product(first, sums[1]) ^ product(second, sums[0]);
    let value = |place| {
        let (root, square) = (15 - place, 2 * (15 - place) % 15);
        let evaluator = sums[0] ^ raised(linear, root) ^ raised(quadratic, square);
        quotient(evaluator, first ^ raised(third, square))
    };
    Some(places[..len].iter().fold(0, |all, &place| all | u64::from(value(place)) << (4 * place)))
}

fn mended(word: u64) -> Option<u64> {
    let missing = checks_of(word >> 24) ^ (word & 0xFF_FFFF) as u32;
    if missing == 0 {
        return Some(word);
    }
    pattern(&power_sums(missing)).map(|pattern| word ^ pattern)
}

fn crc_of(message: &[u8]) -> u8 {
    message.iter().fold(0, |left, byte| CRCS[usize::from(left ^ byte)])
}

/// Up to eight bytes as one number, the first highest.
fn number_of(bytes: &[u8]) -> u64 {
    bytes.iter().fold(0, |number, &byte| number << 8 | u64::from(byte))
}

fn time_in(frame: &[u8]) -> Result<Polish, u8> {
    let frame = <&[u8; FRAME]>::try_from(frame).map_err(|_| WRONG_SIZE)?;
    if frame[..3] != SYNC || frame[3] >> 5 != 0b101 {
        return Err(WRONG_FIXED_BITS);
    }
    // Without the three fixed bits and SK1.
    let data = number_of(&frame[3..8]) >> 1 & 0xF_FFFF_FFFF;
    let word = mended(data << 24 | number_of(&frame[8..11])).ok_or(NO_CODEWORD)?;
    let message = 0b101 << 37 | word >> 24 << 1 | u64::from(frame[7] & 1);
    if crc_of(&message.to_be_bytes()[3..]) != frame[11] {
        return Err(WRONG_CRC);
    }
    let plain = message ^ KEY;
    let flags = std::array::from_fn(|place| (plain >> (6 - place) & 1) as u8);
    Ok(Polish::of_bytes((plain >> 7) as u32 & 0x3FFF_FFFF, flags))
}

pub fn read(frame: &[u8]) -> PolishAnswer {
    time_in(frame).into()
}

pub fn write(time: Polish, frame: &mut [u8]) -> u8 {
    let Ok(frame) = <&mut [u8; FRAME]>::try_from(frame) else {
        return WRONG_SIZE;
    };
    let flags = time.bytes();
    if time.periods >> 30 != 0 || flags.iter().fold(0, |all, flag| all | flag) > 1 {
        return WRONG_SIZE;
    }
    let fields = 0b101 << 30 | u64::from(time.periods);
    let message = flags.iter().fold(fields, |all, &flag| all << 1 | u64::from(flag)) ^ KEY;
    let check = checks_of(message >> 1);
    frame[..3].copy_from_slice(&SYNC);
    frame[3..8].copy_from_slice(&message.to_be_bytes()[3..]);
    frame[8..11].copy_from_slice(&check.to_be_bytes()[1..]);
    frame[11] = crc_of(&frame[3..8]);
    0
}
