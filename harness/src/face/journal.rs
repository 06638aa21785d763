//! The journal of received blocks, and the report that is made of journals.

use super::record::parts;

/// What compaction leaves; the numbers are those of document 02.
#[repr(C)]
#[derive(Clone, Copy, Debug, PartialEq)]
pub struct Compacted {
    pub refusal: u8,
    pub length: u64,
}

/// The new length, or the refusal.
impl From<Result<u64, u8>> for Compacted {
    fn from(answer: Result<u64, u8>) -> Self {
        let (refusal, length) = parts(answer);
        Compacted { refusal, length }
    }
}

/// What is left of a journal without a trailer.
#[repr(C)]
#[derive(Clone, Copy, Debug, PartialEq)]
pub struct Salvaged {
    pub kept: u64,
    pub rest: u64,
}

/// Totals over many journals.
#[repr(C)]
#[derive(Clone, Copy, Debug, PartialEq)]
pub struct Report {
    pub blocks: u64,
    pub good: u64,
    pub fillers: u64,
    pub codes: [u64; 16],
}

impl Report {
    /// Nothing counted yet.
    pub const FRESH: Self = Report { blocks: 0, good: 0, fillers: 0, codes: [0; 16] };
}

/// Good blocks per thousand.
#[repr(C)]
#[derive(Clone, Copy, Debug, PartialEq)]
pub struct Share {
    pub refusal: u8,
    pub quotient: u64,
    pub remainder: u64,
}

/// Quotient and remainder, or the refusal.
impl From<Result<(u64, u64), u8>> for Share {
    fn from(answer: Result<(u64, u64), u8>) -> Self {
        let (refusal, (quotient, remainder)) = parts(answer);
        Share { refusal, quotient, remainder }
    }
}

extern "C" {
    fn lw_compact(journal: *mut u8, len: usize) -> Compacted;
    fn lw_salvage(journal: *const u8, len: usize) -> Salvaged;
    fn lw_report_add(edition: u16, report: *mut Report, journal: *const u8, len: usize) -> u8;
    fn lw_report_join(report: *mut Report, other: Report) -> u8;
    fn lw_per_thousand(report: Report) -> Share;
}

// As with blocks, slices and references stand behind the pointers.

/// Compacts a journal where it stands.
pub fn compact(journal: &mut [u8]) -> Compacted {
    unsafe { lw_compact(journal.as_mut_ptr(), journal.len()) }
}

/// Looks how much of a journal without a trailer can be used.
pub fn salvage(journal: &[u8]) -> Salvaged {
    unsafe { lw_salvage(journal.as_ptr(), journal.len()) }
}

/// Adds a journal to a report and answers the refusal, 0 when added.
pub fn report_add(edition: u16, report: &mut Report, journal: &[u8]) -> u8 {
    unsafe { lw_report_add(edition, report, journal.as_ptr(), journal.len()) }
}

/// Adds the totals of another report and answers the refusal, 0 when added.
pub fn report_join(report: &mut Report, other: Report) -> u8 {
    unsafe { lw_report_join(report, other) }
}

/// How many blocks of a thousand were good.
pub fn per_thousand(report: Report) -> Share {
    unsafe { lw_per_thousand(report) }
}
