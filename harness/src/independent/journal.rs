//! A journal as a list of pairs of numbers: all of it is read before anything is
//! asked of it, what is compacted is a journal written anew, and each total of a
//! report is counted for itself. Sums and products are taken in 128 bits.

use super::packed::{self, LARGEST};
use super::receiver::History;
use super::{number_of, Edition, BLOCK};
use crate::face::{Report, Salvaged};
use crate::refusals::{IMPROPER, NOT_RISING, NUMBER_TOO_WIDE, TOO_MANY_BLOCKS, WRONG_TRAILER};

/// The bytes of an entry, and of the trailer.
pub const ENTRY: usize = 16;

/// The most blocks of a report.
pub const MOST: u64 = 1 << 32;

/// A bit number and a block; of the trailer, an offset and a count.
pub type Entry = (u64, u64);

/// The whole entries that bytes hold; what is left over at their end is left out.
pub fn entries_of(bytes: &[u8]) -> Vec<Entry> {
    let number = |eight: &[u8]| u64::from_be_bytes(eight.try_into().expect("eight bytes"));
    let entry = |bytes: &[u8]| (number(&bytes[..8]), number(&bytes[8..]));
    bytes.chunks_exact(ENTRY).map(entry).collect()
}

/// The bytes of entries.
pub fn bytes_of(entries: &[Entry]) -> Vec<u8> {
    entries
        .iter()
        .flat_map(|(number, block)| [number, block])
        .flat_map(|n| n.to_be_bytes())
        .collect()
}

/// The journal of these entries and nothing else.
pub fn journal_of(wanted: &[Entry]) -> Vec<u8> {
    let trailer = (0, wanted.len() as u64);
    bytes_of(&[wanted, &[trailer]].concat())
}

/// The wanted entries, sound or not, if the trailer fits.
fn pointed_at(journal: &[u8]) -> Option<Vec<Entry>> {
    let mut entries = entries_of(journal);
    let (offset, count) = entries.pop()?;
    let entry = ENTRY as u64;
    let whole = journal.len().is_multiple_of(ENTRY) && offset.is_multiple_of(entry);
    let first = u128::from(offset / entry);
    let end = first + u128::from(count);
    (whole && end <= entries.len() as u128).then(|| entries[first as usize..end as usize].to_vec())
}

/// What the first bad one of some entries is refused for, if there is one. At the
/// same entry the order comes first.
fn fault(entries: &[Entry]) -> Option<u8> {
    let not_rising = entries.windows(2).position(|pair| pair[0].0 >= pair[1].0);
    let too_wide = entries.iter().position(|&(_, block)| block > LARGEST);
    match (not_rising, too_wide) {
        // The second of a pair is the bad one.
        (Some(pair), Some(wide)) if wide <= pair => Some(NUMBER_TOO_WIDE),
        (Some(_), _) => Some(NOT_RISING),
        (None, wide) => wide.map(|_| NUMBER_TOO_WIDE),
    }
}

/// The wanted entries, or the refusal.
fn wanted(journal: &[u8]) -> Result<Vec<Entry>, u8> {
    let entries = pointed_at(journal).ok_or(WRONG_TRAILER)?;
    fault(&entries).map_or(Ok(entries), Err)
}

/// The new length and all bytes as they are then, or the refusal.
pub fn compact(journal: &[u8]) -> Result<(u64, Vec<u8>), u8> {
    let mut bytes = journal_of(&wanted(journal)?);
    let length = bytes.len() as u64;
    bytes.resize(journal.len(), 0);
    Ok((length, bytes))
}

/// Halves the entries again and again to find how many from the front are sound:
/// what is sound has a sound beginning.
pub fn salvage(journal: &[u8]) -> Salvaged {
    let entries = entries_of(journal);
    let counts: Vec<usize> = (1..=entries.len()).collect();
    let sound = counts.partition_point(|&count| fault(&entries[..count]).is_none());
    let kept = sound * ENTRY;
    Salvaged { kept: kept as u64, rest: (journal.len() - kept) as u64 }
}

/// The report of blocks alone.
fn report_of(edition: Edition, blocks: &[u64]) -> Report {
    let good: Vec<(u8, u32)> =
        blocks.iter().filter_map(|&block| packed::read(block).ok()).collect();
    let of_code = |wanted| good.iter().filter(move |&&(code, _)| code == wanted);
    let fillers = of_code(0).filter(|&&(_, word)| edition.is_filler(word >> 26));
    Report {
        blocks: blocks.len() as u64,
        good: good.len() as u64,
        fillers: fillers.count() as u64,
        codes: std::array::from_fn(|code| of_code(code as u8).count() as u64),
    }
}

/// Whether there can be such a report.
pub fn is_proper(report: &Report) -> bool {
    let all_codes: u128 = report.codes.into_iter().map(u128::from).sum();
    report.blocks <= MOST
        && all_codes == u128::from(report.good)
        && report.good <= report.blocks
        && report.fillers <= report.codes[0]
}

/// The report, or the refusal.
fn proper(report: &Report) -> Result<&Report, u8> {
    Some(report).filter(|report| is_proper(report)).ok_or(IMPROPER)
}

/// The totals of two proper reports, or the refusal.
fn both(one: &Report, other: &Report) -> Result<Report, u8> {
    let blocks = u128::from(one.blocks) + u128::from(other.blocks);
    if blocks > u128::from(MOST) {
        return Err(TOO_MANY_BLOCKS);
    }
    // No total of a proper report is above its blocks.
    Ok(Report {
        blocks: blocks as u64,
        good: one.good + other.good,
        fillers: one.fillers + other.fillers,
        codes: std::array::from_fn(|code| one.codes[code] + other.codes[code]),
    })
}

/// The report with a journal added, or the refusal.
pub fn add(edition: u16, report: &Report, journal: &[u8]) -> Result<Report, u8> {
    let edition = Edition::named(edition)?;
    let before = proper(report)?;
    let blocks: Vec<u64> = wanted(journal)?.into_iter().map(|(_, block)| block).collect();
    both(before, &report_of(edition, &blocks))
}

/// The report with another one added, or the refusal.
pub fn join(report: &Report, other: &Report) -> Result<Report, u8> {
    both(proper(report)?, proper(other)?)
}

/// Quotient and remainder of good blocks per thousand, or the refusal. Nothing is
/// divided: the quotient is the largest number up to 1000 that can be taken.
pub fn per_thousand(report: &Report) -> Result<(u64, u64), u8> {
    let Report { blocks, good, .. } = *proper(report)?;
    if blocks == 0 {
        return Ok((0, 0));
    }
    let all = 1000 * u128::from(good);
    let taken = |quotient: u64| u128::from(quotient) * u128::from(blocks);
    let quotient =
        (0..=1000).rev().find(|&quotient| taken(quotient) <= all).expect("0 can be taken");
    Ok((quotient, (all - taken(quotient)) as u64))
}

/// What is printed of a proper report: eight lines.
pub fn lines(report: &Report) -> String {
    let Report { blocks, good, fillers, codes } = *report;
    let (quotient, remainder) = per_thousand(report).expect("a proper report");
    let [a, b, c, d, e, f, g, h, i, j, k, l, m, n, o, p] = codes;
    format!(
        "blocks: {blocks}\n\
         good: {good}\n\
         good per thousand: {quotient}, remainder {remainder}\n\
         fillers: {fillers}\n\
         codes 0 to 3: {a} {b} {c} {d}\n\
         codes 4 to 7: {e} {f} {g} {h}\n\
         codes 8 to 11: {i} {j} {k} {l}\n\
         codes 12 to 15: {m} {n} {o} {p}\n"
    )
}

/// The journal of the blocks, good and bad, that a fresh receiver uses up when it is
/// fed these bits. A window that is passed over is no block. An entry's bit number is
/// how many bits were fed with the last one of its block.
pub fn logged(bits: &[u8]) -> Vec<u8> {
    // What is used up is the same in both editions.
    let mut history = History::fresh(Edition::Of1984);
    let mut entries = Vec::new();
    for (before, &bit) in bits.iter().enumerate() {
        history.hear(bit);
        let counts = history.counts_since(before);
        if counts.good + counts.bad > 0 {
            let fed = before + 1;
            entries.push((fed as u64, number_of(&bits[fed - BLOCK..fed])));
        }
    }
    journal_of(&entries)
}
