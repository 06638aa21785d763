//! The journal and the report.

use std::hint::black_box;

use super::{Guarded, Lent};
use crate::face::{self, Compacted, Report, Salvaged, Share};
use crate::independent::journal;

/// What is said of a journal where the two disagree: its bytes, unless they are many.
fn about(journal: &[u8]) -> String {
    match journal.len() {
        0..=1_000 => format!("{journal:?}"),
        len => format!("{len} bytes"),
    }
}

/// Compares the compaction of a copy of `before`; gives the journal that both leave,
/// cut at its new length, or the refusal on which both agree.
pub fn compacting(before: &[u8]) -> Result<Vec<u8>, u8> {
    let mut lent = Guarded::holding(before);
    let answer = face::compact(lent.content());
    let (expected, mut left) = match journal::compact(before) {
        Ok((length, bytes)) => (Ok(length), bytes),
        Err(refusal) => (Err(refusal), before.to_vec()),
    };
    assert_eq!(answer, Compacted::from(expected), "compacting {}", about(before));
    let mut lent = lent.after();
    assert!(
        lent == Guarded::holding(&left),
        "compacting {} must leave {} and nothing beside it changed, got {}",
        about(before),
        about(&left),
        about(lent.content())
    );
    expected.map(|length| {
        left.truncate(length as usize);
        left
    })
}

/// Compares a salvage; gives the answer on which both agree.
pub fn salvaging(before: &[u8]) -> Salvaged {
    let mut lent = Guarded::holding(before);
    let answer = face::salvage(lent.content());
    assert_eq!(answer, journal::salvage(before), "salvaging {}", about(before));
    assert!(lent.after() == Guarded::holding(before), "salvage changed {}", about(before));
    answer
}

/// Compares the adding of a journal to a copy of a report; gives the report on which
/// both agree, or the refusal, with which the report must stay.
pub fn adding(edition: u16, report: &Report, journal: &[u8]) -> Result<Report, u8> {
    let mut lent = Lent::holding(*report);
    let mut lent_journal = Guarded::holding(journal);
    let refusal = face::report_add(edition, &mut lent.value, lent_journal.content());
    let expected = journal::add(edition, report, journal);
    let what = || format!("adding {} to {report:?}, edition {edition}", about(journal));
    must_be_left(refusal, lent, report, expected, what);
    assert!(lent_journal.after() == Guarded::holding(journal), "{}: it changed", what());
    expected
}

/// Compares the joining of a copy of a report with another; gives the report on which
/// both agree, or the refusal, with which the first must stay.
pub fn joining_reports(report: &Report, other: &Report) -> Result<Report, u8> {
    let mut lent = Lent::holding(*report);
    let refusal = face::report_join(&mut lent.value, *other);
    let expected = journal::join(report, other);
    must_be_left(refusal, lent, report, expected, || format!("joining {report:?} and {other:?}"));
    expected
}

/// With a refusal a lent report must be what it was before.
fn must_be_left(
    refusal: u8,
    lent: Lent<Report>,
    before: &Report,
    expected: Result<Report, u8>,
    what: impl Fn() -> String,
) {
    let left = expected.unwrap_or(*before);
    assert_eq!(
        (refusal, black_box(lent)),
        (expected.err().unwrap_or(0), Lent::holding(left)),
        "{}",
        what()
    );
}

/// Compares good blocks per thousand; gives the answer on which both agree.
pub fn sharing(report: &Report) -> Result<(u64, u64), u8> {
    let answer = face::per_thousand(*report);
    let expected = journal::per_thousand(report);
    assert_eq!(answer, Share::from(expected), "per thousand of {report:?}");
    expected
}
