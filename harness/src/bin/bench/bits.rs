//! Bits, most significant first, as a number and back.

pub fn number_of(bits: &[u8]) -> u16 {
    bits.iter().fold(0, |number, &bit| number << 1 | u16::from(bit))
}

pub fn spread(number: u16, bits: &mut [u8]) {
    let last = bits.len() - 1;
    for (place, bit) in bits.iter_mut().enumerate() {
        *bit = (number >> (last - place) & 1) as u8;
    }
}
