//! A logged block, mended where it stands.

use super::record::parts;

/// What was changed; the numbers are those of document 02.
#[repr(C)]
#[derive(Clone, Copy, Debug, PartialEq)]
pub struct Mended {
    pub refusal: u8,
    pub place: u8,
    pub pattern: u8,
}

impl Mended {
    /// A good block, which nothing changes.
    pub const GOOD: Self = Mended { refusal: 0, place: 0, pattern: 0 };
}

/// Place and pattern, or the refusal.
impl From<Result<(u8, u8), u8>> for Mended {
    fn from(answer: Result<(u8, u8), u8>) -> Self {
        let (refusal, (place, pattern)) = parts(answer);
        Mended { refusal, place, pattern }
    }
}

extern "C" {
    fn lw_mend_block(bits: *mut u8, len: usize) -> Mended;
}

/// Mends a block. As in reading one, a slice stands behind the pointer.
pub fn mend_block(bits: &mut [u8]) -> Mended {
    unsafe { lw_mend_block(bits.as_mut_ptr(), bits.len()) }
}
