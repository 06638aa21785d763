//! Request No. 12 against the library: the totals of a report, what is added to it
//! and in which order, and good blocks per thousand.

use harness::compare::{adding, joining_reports, sharing};
use harness::face::{self, Report, Share, State};
use harness::feeds::{troubled, MISHAPS};
use harness::independent::journal::{entries_of, is_proper, journal_of, logged, Entry, MOST};
use harness::independent::receiver::RUN;
use harness::independent::{bits_of, block, Edition, BLOCK, EDITIONS, PREFIX};
use harness::journals::{sound_entries, Journal};
use harness::random::{report, Random};

/// The report with a sound journal added.
fn added(edition: Edition, report: Report, journal: &[u8]) -> Report {
    adding(edition.number(), &report, journal).expect("a sound journal")
}

/// The report of one journal.
fn report_of(edition: Edition, journal: &[u8]) -> Report {
    added(edition, Report::FRESH, journal)
}

/// The report of several, added one after the other.
fn report_of_all(edition: Edition, journals: &[Vec<u8>]) -> Report {
    journals.iter().fold(Report::FRESH, |report, journal| added(edition, report, journal))
}

/// A journal with gaps and so many blocks of any kind.
fn journal(random: &mut Random, wanted: usize) -> Vec<u8> {
    Journal::with_gaps(random, wanted).bytes()
}

/// A journal of these blocks.
fn journal_of_blocks(blocks: impl IntoIterator<Item = u64>) -> Vec<u8> {
    let entries: Vec<Entry> = (1..).zip(blocks).map(|(place, block)| (50 * place, block)).collect();
    journal_of(&entries)
}

#[test]
fn random_journals_added_to_random_reports() {
    const COUNT: usize = 20_000;
    let mut random = Random::named("journals added");
    for _ in 0..COUNT {
        let before = random.proper_report();
        let wanted = random.below(20);
        let journal = journal(&mut random, wanted);
        for edition in EDITIONS {
            let after = added(edition, before, &journal);
            assert_eq!(after.blocks, before.blocks + wanted as u64);
            assert!(is_proper(&after), "{after:?}");
        }
    }
    report("journals added to reports", 2 * COUNT);
}

/// Each code with each value of the six bits behind it, and anything after them.
#[test]
fn fillers_are_a_matter_of_the_edition() {
    let mut random = Random::named("fillers");
    for code in 0..16 {
        for six in 0..64 {
            let words = [0, random.number() as u32 >> 6, u32::MAX >> 6];
            let sent = words.map(|rest| block(code, six << 26 | rest));
            let journal = journal_of_blocks(sent);
            for edition in EDITIONS {
                let is_filler = code == 0
                    && match edition {
                        Edition::Of1984 => six >= 32,
                        Edition::Of1982 => six == 0,
                    };
                let mut expected = Report { blocks: 3, good: 3, ..Report::FRESH };
                expected.fillers = if is_filler { 3 } else { 0 };
                expected.codes[usize::from(code)] = 3;
                assert_eq!(report_of(edition, &journal), expected, "{code}, {six:06b}");
            }
        }
    }
    report("codes and six bits behind them", 2 * 16 * 64);
}

/// With one place changed, or the prefix wrong and the rest divided evenly, a block is
/// counted and is not good.
#[test]
fn bad_blocks_are_blocks() {
    let mut random = Random::named("bad blocks of journals");
    for _ in 0..200 {
        let good = random.block();
        let changed = (0..BLOCK).map(|place| good ^ 1 << place);
        let journal = journal_of_blocks(changed.chain([0, PREFIX ^ good]));
        for edition in EDITIONS {
            let expected = Report { blocks: BLOCK as u64 + 2, ..Report::FRESH };
            assert_eq!(report_of(edition, &journal), expected, "{good:#o}");
        }
    }
    report("bad blocks", 2 * 200 * (BLOCK + 2));
}

/// Some way in which the same journals come together in one report: each is added to
/// one of several reports, and these are joined.
fn joined_somehow(random: &mut Random, edition: Edition, journals: &[Vec<u8>]) -> Report {
    let mut reports = vec![Report::FRESH; 1 + random.below(4)];
    let mut rest: Vec<&Vec<u8>> = journals.iter().collect();
    while !rest.is_empty() {
        let journal = rest.swap_remove(random.below(rest.len()));
        let which = random.below(reports.len());
        reports[which] = added(edition, reports[which], journal);
        if reports.len() > 1 && random.below(4) == 0 {
            join_two(random, &mut reports);
        }
    }
    while reports.len() > 1 {
        join_two(random, &mut reports);
    }
    reports[0]
}

fn join_two(random: &mut Random, reports: &mut Vec<Report>) {
    let other = reports.swap_remove(random.below(reports.len()));
    let which = random.below(reports.len());
    reports[which] = joining_reports(&reports[which], &other).expect("proper reports");
}

/// Journals may come in any order, and several machines may share them.
#[test]
fn any_order_gives_the_same() {
    const COUNT: usize = 500;
    let mut random = Random::named("orders");
    for _ in 0..COUNT {
        let journals: Vec<Vec<u8>> = (0..8).map(|_| journal(&mut random, 7)).collect();
        for edition in EDITIONS {
            let expected = report_of_all(edition, &journals);
            assert_eq!(expected.blocks, 56);
            for _ in 0..4 {
                assert_eq!(joined_somehow(&mut random, edition, &journals), expected);
            }
        }
    }
    report("orders of eight journals", 2 * 4 * COUNT);
}

/// One journal of all entries gives what its pieces give.
#[test]
fn a_journal_in_pieces() {
    const COUNT: usize = 2_000;
    let mut random = Random::named("pieces of journals");
    for _ in 0..COUNT {
        let entries = sound_entries(&mut random, 12);
        let (front, back) = entries.split_at(random.below(13));
        for edition in EDITIONS {
            let whole = report_of(edition, &journal_of(&entries));
            let pieces = [back, front].map(journal_of);
            assert_eq!(report_of_all(edition, &pieces), whole, "{entries:?}");
            let [one, other] = pieces.map(|piece| report_of(edition, &piece));
            assert_eq!(joining_reports(&one, &other), Ok(whole), "{entries:?}");
        }
    }
    report("journals in pieces", 2 * COUNT);
}

#[test]
fn random_reports_joined() {
    const COUNT: usize = 100_000;
    let mut random = Random::named("reports joined");
    let mut taken = 0;
    for _ in 0..COUNT {
        let [one, other] = [(); 2].map(|()| random.proper_report());
        assert!(is_proper(&one) && is_proper(&other));
        let answer = joining_reports(&one, &other);
        assert_eq!(answer, joining_reports(&other, &one));
        assert_eq!(answer.is_ok(), one.blocks + other.blocks <= MOST);
        assert_eq!(joining_reports(&one, &Report::FRESH), Ok(one));
        taken += usize::from(answer.is_ok());
    }
    assert!((COUNT / 2..COUNT).contains(&taken), "{taken} of {COUNT} taken");
    report("reports joined", COUNT);
}

/// What a receiver counts is what the report of its journal says.
#[test]
fn the_journal_of_a_receiver() {
    let mut random = Random::named("journals of receivers");
    let (mut blocks, mut good) = (0, 0);
    for edition in EDITIONS {
        for _ in 0..60 {
            let feed = troubled(edition, &mut random, 20, 6, |r| MISHAPS[r.below(MISHAPS.len())]);
            let journal = logged(&feed);
            let told = report_of(edition, &journal);
            let mut state = State::FRESH;
            let runs = feed.chunks(RUN).map(|run| face::run(edition.number(), &mut state, run));
            let counted = runs.fold((0, 0), |(blocks, good), counts| {
                (blocks + u64::from(counts.good + counts.bad), good + u64::from(counts.good))
            });
            assert_eq!((told.blocks, told.good), counted);
            let mut entries = entries_of(&journal);
            assert_eq!(entries.pop(), Some((0, told.blocks)));
            for (fed, received) in entries {
                assert_eq!(feed[..fed as usize][fed as usize - BLOCK..], bits_of(received));
            }
            blocks += told.blocks;
            good += told.good;
        }
    }
    assert!(good < blocks, "some bad blocks");
    report("blocks that receivers used up", blocks as usize);
}

/// Quotient and remainder must be those of a thousand times the good blocks.
fn must_share(given: &Report) {
    let (quotient, remainder) = sharing(given).expect("a proper report");
    let Report { blocks, good, .. } = *given;
    assert_eq!(1000 * good, blocks * quotient + remainder, "{given:?}");
    assert!(quotient <= 1000 && (remainder < blocks || blocks == 0), "{given:?}");
}

#[test]
fn good_blocks_per_thousand() {
    const COUNT: usize = 100_000;
    let mut random = Random::named("shares");
    for _ in 0..COUNT {
        must_share(&random.proper_report());
    }
    let of = |blocks, good| {
        let mut report = Report { blocks, good, ..Report::FRESH };
        report.codes[7] = good;
        report
    };
    let mut count = COUNT;
    for blocks in (0..=70).chain([999, 1000, 1001, MOST - 1, MOST]) {
        for good in [0, 1, blocks / 3, blocks / 2, blocks.saturating_sub(1), blocks] {
            must_share(&of(blocks, good.min(blocks)));
            count += 1;
        }
    }
    for (blocks, good, quotient, remainder) in [
        (0, 0, 0, 0),
        (1, 0, 0, 0),
        (1, 1, 1000, 0),
        (6, 4, 666, 4),
        (3, 2, 666, 2),
        (1_001, 1_000, 999, 1),
        (MOST, MOST, 1000, 0),
        (MOST, MOST - 1, 999, MOST - 1000),
        (MOST, 1, 0, 1000),
        // A thousand times these needs more than 32 bits.
        (5_000_000, 4_999_999, 999, 4_999_000),
    ] {
        let expected = Share { refusal: 0, quotient, remainder };
        assert_eq!(face::per_thousand(of(blocks, good)), expected, "{good} of {blocks}");
        must_share(&of(blocks, good));
    }
    report("shares of good blocks", count);
}
