//! Request No. 12 against the library: trailers that do not fit and entries that are
//! not sound, which of the faults counts, and that a refused journal stays as it is.

use harness::compare::{adding, compacting, salvaging};
use harness::face::{self, Compacted, Report};
use harness::independent::journal::{bytes_of, Entry, ENTRY};
use harness::independent::EDITIONS;
use harness::journals::{any_block, anything, sound_entries, Journal};
use harness::random::{report, Random};
use harness::refusals::{NOT_RISING, NUMBER_TOO_WIDE, WRONG_TRAILER};

/// Compaction and the report must both refuse a journal with this, or both take it.
fn must_be_answered(journal: &[u8], expected: Result<(), u8>) {
    assert_eq!(compacting(journal).map(drop), expected, "compacting {journal:?}");
    for edition in EDITIONS {
        let added = adding(edition.number(), &Report::FRESH, journal);
        assert_eq!(added.map(drop), expected, "adding {journal:?}");
    }
}

/// A journal of so many bytes of sound entries, the last of which are a trailer as far
/// as there is room for it.
fn ending_in(random: &mut Random, len: usize, trailer: Entry) -> Vec<u8> {
    let mut bytes = bytes_of(&sound_entries(random, len / ENTRY + 1));
    bytes.truncate(len.saturating_sub(ENTRY));
    let trailer = bytes_of(&[trailer]);
    bytes.extend(&trailer[ENTRY - len.min(ENTRY)..]);
    bytes
}

/// Whether a trailer fits, in bytes.
fn fits(len: usize, (offset, count): Entry) -> bool {
    let end = u128::from(offset) + 16 * u128::from(count);
    let whole = len.is_multiple_of(16) && offset.is_multiple_of(16);
    len > 0 && whole && end + 16 <= len as u128
}

/// Compares a journal of so many bytes with this trailer, and says whether it fits.
fn fitting(random: &mut Random, len: usize, trailer: Entry) -> bool {
    let fits = fits(len, trailer);
    let expected = if fits { Ok(()) } else { Err(WRONG_TRAILER) };
    must_be_answered(&ending_in(random, len, trailer), expected);
    fits
}

/// Numbers around those where sixteenfold, or a sum, no longer goes into 64, 63 or 32
/// bits.
fn large() -> impl Iterator<Item = u64> {
    let powers = [28, 31, 32, 59, 60, 61, 62, 63].map(|power| 1 << power);
    let around = |middle: u64| (0..35).map(move |step| middle.wrapping_add(step).wrapping_sub(17));
    powers.into_iter().chain([0]).flat_map(around).filter(|&number| number > 1 << 20)
}

#[test]
fn every_offset_and_count_of_every_length() {
    let mut random = Random::named("trailers");
    let (mut count, mut taken) = (0, 0);
    for len in 0..=200 {
        let whole = len % ENTRY == 0;
        for offset in (0..=len as u64 + 40).filter(|offset| whole || offset % 16 <= 1) {
            for wanted in 0..=len as u64 / 16 + 2 {
                taken += usize::from(fitting(&mut random, len, (offset, wanted)));
                count += 1;
            }
        }
    }
    // With n entries before the trailer each offset leaves room for some counts.
    let of_entries = |entries: usize| (entries + 1) * (entries + 2) / 2;
    assert_eq!(taken, (0..=11).map(of_entries).sum::<usize>());
    report("trailers near their bounds", count);
}

#[test]
fn large_offsets_and_counts() {
    let mut random = Random::named("large trailers");
    let mut count = 0;
    for len in [16, 17, 32, 96, 192] {
        for number in large() {
            for small in [0, 1, 2, 5, 16, 32, 80] {
                for trailer in [(number, small), (small, number), (number & !15, small)] {
                    assert!(!fitting(&mut random, len, trailer), "{trailer:?}");
                    count += 1;
                }
            }
        }
    }
    report("large offsets or counts", count);
}

/// The end of the wanted entries comes out within the journal in 64 bits, and in
/// truth is far behind it.
#[test]
fn sums_and_products_that_wrap() {
    let mut random = Random::named("trailers that wrap");
    let mut count = 0;
    for len in (16..=192).step_by(ENTRY) {
        let most = (len / ENTRY - 1) as u64;
        for end in 0..=most {
            for turns in 1..16 {
                // The count alone, and the count with every offset that it leaves.
                let turned = turns << 60 | end;
                assert!(!fitting(&mut random, len, (0, turned)), "{turned:#x}");
                for offset in 0..=end {
                    let trailer = (16 * offset, turned - offset);
                    assert!(!fitting(&mut random, len, trailer), "{trailer:x?}");
                    count += 1;
                }
            }
            // The offset is so large that the count brings it round.
            for back in 1..=20 {
                let trailer = (0u64.wrapping_sub(16 * back), end + back);
                assert!(!fitting(&mut random, len, trailer), "{trailer:x?}");
                count += 1;
            }
        }
    }
    report("trailers that wrap", count);
}

/// The trailer comes before the entries, whatever they are.
#[test]
fn a_trailer_before_faults() {
    let mut random = Random::named("a trailer before faults");
    let bad = [(50, 1 << 50), (50, 1 << 63), (0, u64::MAX), (u64::MAX, 0)];
    let journal = Journal::of(&bad);
    for (offset, count) in [(0, 5), (16, 4), (64, 1), (80, 0), (8, 1), (1, 0), (u64::MAX, 1)] {
        must_be_answered(&journal.ending_in((offset, count)), Err(WRONG_TRAILER));
    }
    must_be_answered(&journal.bytes(), Err(NUMBER_TOO_WIDE));
    must_be_answered(&journal.ending_in((64, 0)), Ok(()));
    // Cut at either end it has a length that does not fit.
    for _ in 0..1_000 {
        let whole = Journal::with_gaps(&mut random, 3).bytes();
        for cut in 1..ENTRY {
            must_be_answered(&whole[..whole.len() - cut], Err(WRONG_TRAILER));
            must_be_answered(&whole[cut..], Err(WRONG_TRAILER));
        }
    }
}

/// What can be wrong with an entry that follows another.
#[derive(Clone, Copy, Debug)]
enum Fault {
    Equal,
    Falling,
    Least,
    Wide(u32),
    EqualAndWide(u32),
    FallingAndWide(u32),
}

impl Fault {
    fn all() -> Vec<Self> {
        let wide = [Fault::Wide, Fault::EqualAndWide, Fault::FallingAndWide];
        let places = (50..64).flat_map(|place| wide.map(|fault| fault(place)));
        [Fault::Equal, Fault::Falling, Fault::Least].into_iter().chain(places).collect()
    }

    fn refusal(self) -> u8 {
        match self {
            Fault::Wide(_) => NUMBER_TOO_WIDE,
            _ => NOT_RISING,
        }
    }

    /// The entry with this fault, behind the bit number of the one before.
    fn of(self, before: u64, (number, block): Entry) -> Entry {
        let number = match self {
            Fault::Equal | Fault::EqualAndWide(_) => before,
            Fault::Falling | Fault::FallingAndWide(_) => before.saturating_sub(1),
            Fault::Least => 0,
            Fault::Wide(_) => number,
        };
        match self {
            Fault::Wide(place) | Fault::EqualAndWide(place) | Fault::FallingAndWide(place) => {
                (number, block | 1 << place)
            }
            _ => (number, block),
        }
    }

    /// Puts it into entries at a place behind the first.
    fn into(self, entries: &mut [Entry], place: usize) {
        entries[place] = self.of(entries[place - 1].0, entries[place]);
    }
}

/// Sound entries far apart, so that a falling number disturbs no later one.
fn entries_apart(random: &mut Random, count: usize) -> Vec<Entry> {
    (1..=count as u64).map(|place| (place * 50, any_block(random))).collect()
}

/// Among anything these entries must be refused with this, and salvaged up to here.
fn must_be_found(random: &mut Random, entries: &[Entry], place: usize, refusal: u8) {
    let [before, behind] = [(); 2].map(|()| random.below(3));
    let journal = Journal {
        before: anything(random, before),
        wanted: entries.to_vec(),
        behind: anything(random, behind),
    };
    must_be_answered(&journal.bytes(), Err(refusal));
    assert_eq!(salvaging(&bytes_of(entries)).kept, (place * ENTRY) as u64, "{entries:?}");
}

#[test]
fn every_fault_at_every_place() {
    const ENTRIES: usize = 12;
    let mut random = Random::named("faults");
    let mut count = 0;
    for place in 1..ENTRIES {
        for fault in Fault::all() {
            let mut entries = entries_apart(&mut random, ENTRIES);
            fault.into(&mut entries, place);
            must_be_found(&mut random, &entries, place, fault.refusal());
            count += 1;
        }
    }
    // The first entry has no order to keep.
    for place in 50..64 {
        let mut entries = entries_apart(&mut random, ENTRIES);
        entries[0].1 |= 1 << place;
        must_be_found(&mut random, &entries, 0, NUMBER_TOO_WIDE);
        count += 1;
    }
    report("faults at every place", count);
}

#[test]
fn the_first_of_two_faults_counts() {
    const ENTRIES: usize = 8;
    let mut random = Random::named("two faults");
    let mut count = 0;
    for first in 1..ENTRIES {
        for second in first + 1..ENTRIES {
            for one in Fault::all() {
                for other in [Fault::Equal, Fault::Least, Fault::Wide(50), Fault::Wide(63)] {
                    let mut entries = entries_apart(&mut random, ENTRIES);
                    one.into(&mut entries, first);
                    other.into(&mut entries, second);
                    must_be_found(&mut random, &entries, first, one.refusal());
                    count += 1;
                }
            }
        }
    }
    report("pairs of faults", count);
}

/// Bit numbers that differ in any one place, the higher first and last.
#[test]
fn every_place_of_a_bit_number() {
    let mut random = Random::named("places of bit numbers");
    for place in 0..64 {
        let low = random.number() & !(1 << place);
        let high = low | 1 << place;
        let [one, other] = [(); 2].map(|()| any_block(&mut random));
        must_be_answered(&Journal::of(&[(low, one), (high, other)]).bytes(), Ok(()));
        must_be_found(&mut random, &[(high, one), (low, other)], 1, NOT_RISING);
        must_be_found(&mut random, &[(low, one), (low, other)], 1, NOT_RISING);
    }
}

#[test]
fn entries_of_random_bytes() {
    const COUNT: usize = 20_000;
    let mut random = Random::named("entries of random bytes");
    for _ in 0..COUNT {
        let mut journal = Journal::with_gaps(&mut random, 6);
        for _ in 0..random.below(3) {
            let (number, block) = &mut journal.wanted[random.below(6)];
            *[number, block][random.below(2)] = random.number() >> random.below(16);
        }
        let bytes = journal.bytes();
        let refusal = compacting(&bytes).err();
        assert_eq!(adding(1984, &Report::FRESH, &bytes).err(), refusal, "{bytes:?}");
        assert_eq!(salvaging(&bytes_of(&journal.wanted)).rest == 0, refusal.is_none(), "{bytes:?}");
        salvaging(&bytes);
    }
    report("journals with random bytes", COUNT);
}

/// The numbers themselves, without the independent program.
#[test]
fn what_is_refused_stays_and_has_no_length() {
    let journal = |entries: &[Entry], trailer| Journal::of(entries).ending_in(trailer);
    let wide = 1 << 50;
    for (bytes, refusal) in [
        (vec![], 23),
        (vec![0; 15], 23),
        (vec![0; 17], 23),
        (journal(&[(1, 0)], (0, 2)), 23),
        (journal(&[(1, 0)], (16, 1)), 23),
        (journal(&[(1, 0)], (8, 0)), 23),
        (journal(&[(7, 0), (7, 0)], (0, 2)), 24),
        (journal(&[(7, 0), (6, wide)], (0, 2)), 24),
        (journal(&[(7, wide), (6, 0)], (0, 2)), 14),
    ] {
        let mut lent = bytes.clone();
        let answer = face::compact(&mut lent);
        assert_eq!((answer, lent), (Compacted { refusal, length: 0 }, bytes.clone()), "{bytes:?}");
        let mut lent = Report::FRESH;
        assert_eq!(face::report_add(1984, &mut lent, &bytes), refusal, "{bytes:?}");
        assert_eq!(lent, Report::FRESH, "{bytes:?}");
    }
}
