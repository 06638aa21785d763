//! The readings of the radio board, decided into bits.

use super::record::parts;

/// What was decided; the numbers are those of document 02.
#[repr(C)]
#[derive(Clone, Copy, Debug, PartialEq)]
pub struct Decided {
    pub refusal: u8,
    pub pairing: u8,
    pub bits: u64,
}

/// The pairing and the number of bits, or the refusal.
impl From<Result<(u8, u64), u8>> for Decided {
    fn from(answer: Result<(u8, u64), u8>) -> Self {
        let (refusal, (pairing, bits)) = parts(answer);
        Decided { refusal, pairing, bits }
    }
}

extern "C" {
    fn lw_decide(
        readings: *const f32,
        len: usize,
        margin: f32,
        polarity: u8,
        bits: *mut u8,
        bits_len: usize,
    ) -> Decided;
}

/// Decides the bits of some readings and puts them to the front of `bits`. As with
/// blocks, slices stand behind the pointers.
pub fn decide(readings: &[f32], margin: f32, polarity: u8, bits: &mut [u8]) -> Decided {
    let (readings, len) = (readings.as_ptr(), readings.len());
    unsafe { lw_decide(readings, len, margin, polarity, bits.as_mut_ptr(), bits.len()) }
}
