//! Bytes of which one or two take every value, and bits of which one is none.

/// Every change of at most one of the bytes, some of them more than once.
pub fn one_changed<const N: usize>(bytes: [u8; N]) -> impl Iterator<Item = [u8; N]> {
    (0..N).flat_map(move |place| {
        (0..=u8::MAX).map(move |value| {
            let mut changed = bytes;
            changed[place] = value;
            changed
        })
    })
}

/// Every change of at most two of the bytes, some of them more than once.
pub fn two_changed<const N: usize>(bytes: [u8; N]) -> impl Iterator<Item = [u8; N]> {
    let pairs = (1..N).flat_map(|second| (0..second).map(move |first| (first, second)));
    pairs.flat_map(move |(first, second)| {
        (0..=u16::MAX).map(move |values| {
            let mut changed = bytes;
            [changed[first], changed[second]] = values.to_be_bytes();
            changed
        })
    })
}

/// The bits as they are, and with this byte as the first, a middle or the last.
pub fn one_replaced(bits: &[u8], byte: u8) -> Vec<Vec<u8>> {
    let len = bits.len();
    let places = [0, len / 2, len.saturating_sub(1)].into_iter().filter(|&place| place < len);
    let replaced = places.map(|place| {
        let mut bytes = bits.to_vec();
        bytes[place] = byte;
        bytes
    });
    std::iter::once(bits.to_vec()).chain(replaced).collect()
}
