//! Request No. 12 against the library: reports that are not proper, editions that do
//! not exist, more than 2^32 blocks, and which of several faults counts.

use harness::compare::{adding, joining_reports, sharing};
use harness::face::{self, Report, Share};
use harness::independent::journal::{is_proper, journal_of, Entry, MOST};
use harness::independent::EDITIONS;
use harness::journals::{any_block, Journal};
use harness::random::{report, Random};
use harness::refusals::{
    IMPROPER, NOT_RISING, NUMBER_TOO_WIDE, OUT_OF_RANGE, TOO_MANY_BLOCKS, WRONG_TRAILER,
};

/// A proper report with so many blocks, all bad.
fn all_bad(blocks: u64) -> Report {
    Report { blocks, ..Report::FRESH }
}

/// A proper report with so many blocks, all of them fillers.
fn all_fillers(blocks: u64) -> Report {
    let mut report = Report { blocks, good: blocks, fillers: blocks, ..Report::FRESH };
    report.codes[0] = blocks;
    report
}

/// A sound journal of so many blocks.
fn journal(random: &mut Random, wanted: usize) -> Vec<u8> {
    Journal::with_gaps(random, wanted).bytes()
}

/// The report made improper in each way, and in no other if it can be helped.
fn improper(random: &mut Random, proper: &Report) -> Vec<Report> {
    let mut all = Vec::new();
    let mut push = |change: &dyn Fn(&mut Report)| {
        let mut report = *proper;
        change(&mut report);
        assert!(!is_proper(&report), "{report:?}");
        all.push(report);
    };
    let (one, other) = (random.below(16), random.below(15));
    let other = if other < one { other } else { other + 1 };
    let some = 1 + random.number() % u64::MAX;
    for blocks in [MOST + 1, MOST + 2, MOST * 2, 1 << 63, u64::MAX] {
        push(&|report| report.blocks = blocks);
    }
    // One code too many or too few, or far too many.
    push(&|report| report.codes[one] += 1);
    push(&|report| report.codes[one] = report.codes[one].wrapping_sub(1));
    push(&|report| report.codes[one] = report.codes[one].wrapping_add(some));
    // More good blocks than blocks, with codes that add up.
    push(&|report| {
        report.codes[one] += report.blocks - report.good + 1;
        report.good = report.blocks + 1;
    });
    // More fillers than blocks of code 0, if not more than good ones.
    push(&|report| report.fillers = report.codes[0] + 1);
    push(&|report| report.fillers = u64::MAX);
    push(&|report| {
        report.codes[1] += report.codes[0];
        report.codes[0] = 0;
        report.fillers = report.good.max(1);
    });
    // Codes that add up to 2^64 more than the good blocks.
    push(&|report| {
        let sum = report.codes[one] + report.codes[other];
        report.codes[one] = u64::MAX;
        report.codes[other] = sum + 1;
        report.fillers = 0;
    });
    push(&|report| {
        report.codes = report.codes.map(|code| code + (1 << 60));
    });
    all
}

/// Improper reports from fresh, full and random ones.
fn improper_reports(random: &mut Random, count: usize) -> Vec<Report> {
    let mut starts =
        vec![Report::FRESH, all_bad(1), all_bad(MOST), all_fillers(1), all_fillers(MOST)];
    starts.resize_with(count, || random.proper_report());
    starts.iter().flat_map(|start| improper(random, start)).collect()
}

#[test]
fn improper_reports_are_refused() {
    let mut random = Random::named("improper reports");
    let reports = improper_reports(&mut random, 1_000);
    for given in &reports {
        let proper = random.proper_report();
        let journal = journal(&mut random, 2);
        for edition in EDITIONS {
            assert_eq!(adding(edition.number(), given, &journal), Err(IMPROPER));
        }
        assert_eq!(joining_reports(given, &proper), Err(IMPROPER));
        assert_eq!(joining_reports(&proper, given), Err(IMPROPER));
        assert_eq!(joining_reports(given, given), Err(IMPROPER));
        assert_eq!(sharing(given), Err(IMPROPER));
        let refused = Share { refusal: 10, quotient: 0, remainder: 0 };
        assert_eq!(face::per_thousand(*given), refused, "{given:?}");
    }
    report("improper reports", reports.len());
}

/// Every total changed by one, up and down, and to the largest number.
#[test]
fn every_total_of_a_report() {
    let mut random = Random::named("totals");
    let mut count = 0;
    for _ in 0..2_000 {
        let proper = random.proper_report();
        for total in 0..19 {
            for change in [1, u64::MAX, 1 << 32, 1 << 63] {
                let mut changed = proper;
                let Report { blocks, good, fillers, codes } = &mut changed;
                let total = match total {
                    0 => blocks,
                    1 => good,
                    2 => fillers,
                    code => &mut codes[code - 3],
                };
                *total = total.wrapping_add(change);
                let expected = if is_proper(&changed) { Ok(()) } else { Err(IMPROPER) };
                assert_eq!(sharing(&changed).map(drop), expected, "{changed:?}");
                assert_eq!(joining_reports(&changed, &Report::FRESH).map(drop), expected);
                assert_eq!(joining_reports(&Report::FRESH, &changed).map(drop), expected);
                assert_eq!(adding(1984, &changed, &[0; 16]).map(drop), expected);
                count += 1;
            }
        }
    }
    report("reports with a total changed", count);
}

#[test]
fn every_edition() {
    let mut random = Random::named("editions of reports");
    let journal = journal(&mut random, 3);
    let before = random.proper_report();
    for edition in 0..=u16::MAX {
        let expected = match edition {
            1982 | 1984 => Ok(()),
            _ => Err(OUT_OF_RANGE),
        };
        assert_eq!(adding(edition, &before, &journal).map(drop), expected, "{edition}");
    }
    report("editions", 1 << 16);
}

/// Exactly 2^32 blocks are taken, and with one more the report stays.
#[test]
fn as_many_blocks_as_there_can_be() {
    let mut random = Random::named("full reports");
    let mut count = 0;
    for fill in [all_bad, all_fillers] {
        for wanted in 0..=20 {
            let journal = journal(&mut random, wanted);
            for room in 0..=21 {
                let expected =
                    if wanted as u64 <= room { Ok(MOST - room + wanted as u64) } else { Err(30) };
                let before = fill(MOST - room);
                for edition in EDITIONS {
                    let added = adding(edition.number(), &before, &journal);
                    assert_eq!(added.map(|report| report.blocks), expected);
                }
                for joined in [
                    joining_reports(&before, &all_bad(wanted as u64)),
                    joining_reports(&all_bad(wanted as u64), &before),
                    joining_reports(&before, &all_fillers(wanted as u64)),
                ] {
                    assert_eq!(joined.map(|report| report.blocks), expected);
                }
                count += 5;
            }
        }
    }
    report("full reports", count);
}

#[test]
fn sums_around_two_to_the_thirty_second() {
    let mut random = Random::named("sums of blocks");
    let mut count = 0;
    let halves = [0, 1, 2, MOST / 2 - 1, MOST / 2, MOST / 2 + 1, MOST - 2, MOST - 1, MOST];
    let any = [(); 20].map(|()| random.number() % (MOST + 1));
    for one in halves.into_iter().chain(any) {
        let around = [MOST - one, (MOST - one).saturating_sub(1), (MOST - one + 1).min(MOST)];
        for other in halves.into_iter().chain(around) {
            let expected = if one + other <= MOST { Ok(()) } else { Err(TOO_MANY_BLOCKS) };
            for (first, second) in [
                (all_bad(one), all_bad(other)),
                (all_bad(one), all_fillers(other)),
                (all_fillers(one), all_fillers(other)),
            ] {
                assert_eq!(joining_reports(&first, &second).map(drop), expected);
                count += 1;
            }
        }
    }
    report("sums around 2^32 blocks", count);
}

/// Each fault with each other. The first in the order of the numbers below counts.
#[test]
fn which_of_several_faults_counts() {
    let mut random = Random::named("several faults");
    let mut count = 0;
    for faults in 0..1 << 6 {
        let has = |fault: u32| faults >> fault & 1 != 0;
        let edition = if has(0) { 1983 } else { 1984 };
        let mut entries: Vec<Entry> = (1..=4).map(|n| (50 * n, any_block(&mut random))).collect();
        if has(3) {
            entries[1].0 = 50;
        }
        if has(4) {
            entries[1].1 |= 1 << 50;
        }
        let trailer = if has(2) { (0, 5) } else { (0, 4) };
        let journal = Journal::of(&entries).ending_in(trailer);
        let blocks = if has(5) { MOST - 3 } else { MOST - 4 };
        let starts = [all_bad(blocks), all_fillers(blocks)];
        for start in starts {
            let reports = if has(1) { improper(&mut random, &start) } else { vec![start] };
            let order = [
                OUT_OF_RANGE,
                IMPROPER,
                WRONG_TRAILER,
                NOT_RISING,
                NUMBER_TOO_WIDE,
                TOO_MANY_BLOCKS,
            ];
            let first = (0..6).find(|&fault| has(fault)).map(|fault| order[fault as usize]);
            for given in reports {
                assert_eq!(adding(edition, &given, &journal).err(), first, "{faults:06b}");
                count += 1;
            }
        }
    }
    report("several faults at once", count);
}

/// What does not go into a report is refused for its own faults first; and of two
/// reports either may be improper, which comes before too many blocks.
#[test]
fn joins_with_several_faults() {
    let mut random = Random::named("joins with several faults");
    let full = [all_bad(MOST), all_fillers(MOST)];
    let mut count = 0;
    for one in full {
        assert_eq!(joining_reports(&one, &all_bad(1)), Err(TOO_MANY_BLOCKS));
        assert_eq!(joining_reports(&one, &Report::FRESH), Ok(one));
        assert_eq!(adding(1984, &one, &journal_of(&[])), Ok(one));
        assert_eq!(adding(1982, &one, &journal_of(&[(0, 0)])), Err(TOO_MANY_BLOCKS));
        for other in full.iter().flat_map(|other| improper(&mut random, other)) {
            assert_eq!(joining_reports(&one, &other), Err(IMPROPER));
            assert_eq!(joining_reports(&other, &one), Err(IMPROPER));
            count += 2;
        }
    }
    report("joins with several faults", count);
}
