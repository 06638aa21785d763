//! The Polish time frame.

use super::record::parts;

/// The fields of a frame: three-second periods since 1 January 2000, then one
/// bit each.
#[repr(C)]
#[derive(Clone, Copy, Debug, Default, PartialEq)]
pub struct Polish {
    pub periods: u32,
    pub tz0: u8,
    pub tz1: u8,
    pub ls: u8,
    pub lss: u8,
    pub tzc: u8,
    pub sk0: u8,
    pub sk1: u8,
}

impl Polish {
    /// The fields behind the periods as bytes, in their order.
    pub fn bytes(self) -> [u8; 7] {
        let Polish { periods: _, tz0, tz1, ls, lss, tzc, sk0, sk1 } = self;
        [tz0, tz1, ls, lss, tzc, sk0, sk1]
    }

    pub fn of_bytes(periods: u32, [tz0, tz1, ls, lss, tzc, sk0, sk1]: [u8; 7]) -> Self {
        Polish { periods, tz0, tz1, ls, lss, tzc, sk0, sk1 }
    }
}

#[repr(C)]
#[derive(Clone, Copy, Debug, PartialEq)]
pub struct PolishAnswer {
    pub refusal: u8,
    pub time: Polish,
}

impl From<Result<Polish, u8>> for PolishAnswer {
    fn from(answer: Result<Polish, u8>) -> Self {
        let (refusal, time) = parts(answer);
        PolishAnswer { refusal, time }
    }
}

extern "C" {
    fn lw_read_polish(frame: *const u8, len: usize) -> PolishAnswer;
    fn lw_write_polish(time: Polish, frame: *mut u8, len: usize) -> u8;
}

// As with blocks, slices stand behind the pointers.

/// Reads a frame.
pub fn read_polish(frame: &[u8]) -> PolishAnswer {
    unsafe { lw_read_polish(frame.as_ptr(), frame.len()) }
}

/// Writes a frame over `frame` and answers the refusal, 0 when written.
pub fn write_polish(time: Polish, frame: &mut [u8]) -> u8 {
    unsafe { lw_write_polish(time, frame.as_mut_ptr(), frame.len()) }
}
