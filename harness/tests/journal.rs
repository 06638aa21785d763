//! Request No. 12 against the library: what compaction and salvage make of sound
//! journals, beside a program that reads a journal into a list.

use harness::compare::{adding, compacting, salvaging};
use harness::face::{self, Compacted, Report, Salvaged};
use harness::independent::journal::{bytes_of, journal_of, Entry, ENTRY};
use harness::independent::packed::LARGEST;
use harness::independent::EDITIONS;
use harness::journals::{anything, sound_entries, Journal};
use harness::random::{report, Random};

/// The library must leave these entries and their trailer, compacted again the same,
/// and must count the same in both.
fn must_become(journal: &[u8], wanted: &[Entry]) {
    let expected = Ok(journal_of(wanted));
    assert_eq!(compacting(journal), expected, "{journal:?}");
    assert_eq!(compacting(&journal_of(wanted)), expected, "compacted again");
    for edition in EDITIONS {
        let [before, after] = [journal, &journal_of(wanted)]
            .map(|journal| adding(edition.number(), &Report::FRESH, journal));
        assert_eq!(before, after, "{journal:?}");
        assert_eq!(before.map(|report| report.blocks), Ok(wanted.len() as u64));
    }
}

/// So much must be kept, and the rest is what is behind.
fn must_be_kept(journal: &[u8], kept: usize) {
    let expected = Salvaged { kept: kept as u64, rest: (journal.len() - kept) as u64 };
    assert_eq!(salvaging(journal), expected, "{journal:?}");
}

#[test]
fn journals_with_gaps() {
    const COUNT: usize = 20_000;
    let mut random = Random::named("journals with gaps");
    for _ in 0..COUNT {
        let wanted = random.below(12);
        let journal = Journal::with_gaps(&mut random, wanted);
        must_become(&journal.bytes(), &journal.wanted);
    }
    report("journals with gaps", COUNT);
}

/// As many entries before and behind as there can be, each with each.
#[test]
fn every_size_of_gaps() {
    let mut random = Random::named("sizes of gaps");
    let mut count = 0;
    for wanted in 0..=12 {
        for before in 0..=12 {
            for behind in 0..=12 {
                let journal = Journal {
                    before: anything(&mut random, before),
                    wanted: sound_entries(&mut random, wanted),
                    behind: anything(&mut random, behind),
                };
                must_become(&journal.bytes(), &journal.wanted);
                count += 1;
            }
        }
    }
    report("sizes of gaps", count);
}

/// Of a compacted journal with its old length the last bytes may be zeros: nothing is
/// wanted in it.
#[test]
fn the_old_length_is_another_journal() {
    let mut random = Random::named("old lengths");
    for gap in 1..=8 {
        let wanted = sound_entries(&mut random, 3);
        let behind = anything(&mut random, gap);
        let mut bytes = Journal { behind, ..Journal::of(&wanted) }.bytes();
        let len = bytes.len();
        assert_eq!(face::compact(&mut bytes), Compacted { refusal: 0, length: 64 });
        assert_eq!(bytes[..64], journal_of(&wanted));
        assert!(bytes[64..].iter().all(|&byte| byte == 0), "{bytes:?}");
        must_become(&bytes, &[]);
        assert_eq!(face::compact(&mut bytes), Compacted { refusal: 0, length: 16 });
        assert_eq!(bytes, vec![0; len]);
    }
}

/// The bytes themselves, without the independent program.
#[test]
fn a_journal_byte_by_byte() {
    let entry = |number, block| [[0, 0, 0, 0, 0, 0, 0, number], [0, 2, 0, 0, 0, 0, 0, block]];
    let trailer = |offset, count| [[0, 0, 0, 0, 0, 0, 0, offset], [0, 0, 0, 0, 0, 0, 0, count]];
    let rubbish = [[0xFF; 8]; 2];
    let before = [rubbish, rubbish, entry(50, 0), entry(51, 7), rubbish, trailer(32, 2)];
    let after = [entry(50, 0), entry(51, 7), trailer(0, 2), [[0; 8]; 2], [[0; 8]; 2], [[0; 8]; 2]];
    let mut bytes = before.concat().concat();
    assert_eq!(face::salvage(&bytes), Salvaged { kept: 0, rest: 96 });
    assert_eq!(face::salvage(&bytes[32..]), Salvaged { kept: 32, rest: 32 });
    assert_eq!(face::compact(&mut bytes), Compacted { refusal: 0, length: 48 });
    assert_eq!(bytes, after.concat().concat());
    assert_eq!(face::salvage(&bytes), Salvaged { kept: 32, rest: 64 });
}

/// A journal may stand anywhere in memory.
#[test]
fn at_every_address() {
    let mut random = Random::named("addresses");
    for address in 0..ENTRY {
        let journal = Journal::with_gaps(&mut random, 5);
        let wanted = journal_of(&journal.wanted);
        let length = wanted.len() as u64;
        let mut bytes = [&vec![0xA5; address][..], &journal.bytes()].concat();
        let answer = face::compact(&mut bytes[address..]);
        assert_eq!(answer, Compacted { refusal: 0, length });
        assert_eq!(bytes[..address], vec![0xA5; address]);
        assert_eq!(bytes[address..][..wanted.len()], wanted);
        bytes.truncate(address + wanted.len());
        let expected = Salvaged { kept: length - ENTRY as u64, rest: ENTRY as u64 };
        assert_eq!(face::salvage(&bytes[address..]), expected);
        for edition in EDITIONS {
            let mut report = Report::FRESH;
            assert_eq!(face::report_add(edition.number(), &mut report, &bytes[address..]), 0);
            assert_eq!(Ok(report), adding(edition.number(), &Report::FRESH, &wanted));
        }
    }
}

/// What stands outside the wanted entries, and would be refused among them, is no
/// fault: a bit number that does not rise, or a block that is too wide.
#[test]
fn faults_outside_are_none() {
    let mut random = Random::named("faults outside");
    let wide = |place: u32| (1 << place, 1 << place);
    let faults: Vec<Entry> = (50..64).map(wide).chain([(0, 0), (u64::MAX, u64::MAX)]).collect();
    let mut count = 0;
    for wanted in 0..=4 {
        let wanted = sound_entries(&mut random, wanted);
        let like_wanted = wanted.iter().map(|&(number, _)| (number, u64::MAX));
        for fault in faults.iter().copied().chain(like_wanted) {
            for place in 0..6 {
                let mut gaps = [(); 2].map(|()| sound_entries(&mut random, 3));
                gaps[place / 3][place % 3] = fault;
                let [before, behind] = gaps.map(|gap| bytes_of(&gap));
                let journal = Journal { before, wanted: wanted.clone(), behind };
                must_become(&journal.bytes(), &wanted);
                count += 1;
            }
        }
    }
    report("faults outside the wanted entries", count);
}

#[test]
fn salvage_of_every_length() {
    let mut random = Random::named("lengths to be salvaged");
    let mut count = 0;
    for len in 0..=200 {
        for _ in 0..40 {
            let bytes = bytes_of(&sound_entries(&mut random, 13));
            must_be_kept(&bytes[..len], len / ENTRY * ENTRY);
            salvaging(&anything(&mut random, 13)[..len]);
            count += 2;
        }
    }
    report("lengths salvaged", count);
}

/// The trailer is an entry like any other: its offset is 0, which rises only where
/// it comes first.
#[test]
fn every_cut_of_a_journal() {
    let mut random = Random::named("cuts");
    let mut count = 0;
    for wanted in 0..=12 {
        for _ in 0..10 {
            let bytes = journal_of(&sound_entries(&mut random, wanted));
            let most = if wanted == 0 { ENTRY } else { wanted * ENTRY };
            for cut in 0..=bytes.len() {
                must_be_kept(&bytes[..cut], (cut / ENTRY * ENTRY).min(most));
                count += 1;
            }
        }
    }
    report("cuts of journals", count);
}

/// A journal that was cut short is used by its sound entries with a new trailer.
#[test]
fn what_was_salvaged_is_a_journal() {
    const COUNT: usize = 2_000;
    let mut random = Random::named("salvaged journals");
    for _ in 0..COUNT {
        let entries = 1 + random.below(12);
        let bytes = bytes_of(&sound_entries(&mut random, entries));
        let cut = &bytes[..random.below(bytes.len() + 1)];
        let kept = salvaging(cut).kept;
        let trailer = bytes_of(&[(0, kept / ENTRY as u64)]);
        let whole = [&cut[..kept as usize], &trailer].concat();
        assert_eq!(compacting(&whole), Ok(whole), "{cut:?}");
    }
    report("journals salvaged and compacted", COUNT);
}

#[test]
fn the_first_bit_number_may_be_any() {
    for number in [0, 1, 50, 1 << 32, 1 << 63, u64::MAX - 1, u64::MAX] {
        let first = (number, LARGEST);
        must_be_kept(&bytes_of(&[first]), ENTRY);
        must_become(&journal_of(&[first]), &[first]);
        for second in [0, 1, number, u64::MAX] {
            let entries = [first, (second, 0)];
            let sound = if second > number { 2 } else { 1 };
            must_be_kept(&bytes_of(&entries), sound * ENTRY);
            must_be_kept(&journal_of(&entries), sound * ENTRY);
            assert_eq!(compacting(&journal_of(&entries)).is_ok(), sound == 2, "{entries:?}");
        }
    }
}

/// Once, about as many entries as a month has. The sixteenth part is not wanted.
#[test]
fn a_million_entries() {
    const COUNT: usize = 1_000_000;
    let mut random = Random::named("a million entries");
    let mut entries = sound_entries(&mut random, COUNT);
    let before = entries.drain(..COUNT / 16).collect::<Vec<Entry>>();
    let behind = anything(&mut random, 1_000);
    let journal = Journal { before: bytes_of(&before), wanted: entries, behind }.bytes();
    let compacted = compacting(&journal).expect("a sound journal");
    assert_eq!(compacted.len(), (COUNT - COUNT / 16 + 1) * ENTRY);
    assert_eq!(salvaging(&compacted).rest, ENTRY as u64);
    assert!(salvaging(&journal).kept >= (COUNT * ENTRY) as u64);
    for edition in EDITIONS {
        let fresh = Report::FRESH;
        let [one, other] = [&journal, &compacted].map(|j| adding(edition.number(), &fresh, j));
        assert_eq!(one, other, "{edition:?}");
        assert_eq!(one.map(|report| report.blocks), Ok((COUNT - COUNT / 16) as u64));
    }
    report("entries of one journal", COUNT);
}
