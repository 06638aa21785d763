//! The program that logs the blocks of a receiver and the one that reports on a
//! journal: each beside the independent answer, and one behind the other. Also what
//! they do with inputs, arguments and outputs that are none, and their sample files.

use std::ffi::OsString;
use std::fs::{self, File};
use std::io::Write as _;
use std::os::fd::OwnedFd;
use std::os::unix::net::UnixStream;
use std::path::Path;
use std::process::Stdio;
use std::time::Duration;

use harness::face::Report;
use harness::feeds::{troubled, with_newlines, Mishap, MISHAPS};
use harness::independent::journal::{add, bytes_of, entries_of, journal_of, lines, logged, ENTRY};
use harness::independent::packed::LARGEST;
use harness::independent::receiver::RUN;
use harness::independent::{bits_in, block, Edition, EDITIONS};
use harness::journals::{anything, sound_entries, Journal};
use harness::program::{
    logger, project, reporter, start, stored_feed, written, written_of_pieces, NO_EDITIONS,
};
use harness::random::{report, Random};
use harness::refusals::{NOT_RISING, NUMBER_TOO_WIDE, WRONG_TRAILER};
use harness::samples::samples;
use harness::stored::file;
use harness::stories::Story;

/// The bytes of the longest journal that is taken.
const LONGEST: usize = 6_291_456;

/// The ways to ask for a report, and the edition that is meant.
const ASKED: [(&[&str], Edition); 3] =
    [(&[], Edition::Of1984), (&["1984"], Edition::Of1984), (&["1982"], Edition::Of1982)];

/// The program, or a line that says that it was not run.
fn log_blocks() -> Option<OsString> {
    if logger().is_none() {
        println!("LOG_BLOCKS_BIN is not set: the product's program was NOT run");
    }
    logger()
}

/// The same of the other one.
fn report_program() -> Option<OsString> {
    if reporter().is_none() {
        println!("REPORT_BIN is not set: the product's program was NOT run");
    }
    reporter()
}

/// Those that are there, with their names.
fn programs() -> impl Iterator<Item = (&'static str, OsString)> {
    let named = [("log_blocks", log_blocks()), ("report", report_program())];
    named.into_iter().filter_map(|(name, program)| Some((name, program?)))
}

/// A file that holds these bytes, opened.
fn input(name: &str, bytes: &[u8]) -> File {
    let path = Path::new(env!("CARGO_TARGET_TMPDIR")).join(name);
    fs::write(&path, bytes).unwrap_or_else(|error| panic!("{}: {error}", path.display()));
    open(&path)
}

fn open(path: &Path) -> File {
    File::open(path).unwrap_or_else(|error| panic!("{}: {error}", path.display()))
}

/// The journal of this text must be written, and nothing on standard error.
fn must_log(program: &OsString, name: &str, text: &[u8]) -> Vec<u8> {
    let (journal, reason) = written(start(program, &[], input(name, text), Stdio::piped()));
    assert_eq!(reason, "", "{name}");
    assert!(journal == logged(&bits_in(text)), "{name}: {:?}", entries_of(&journal));
    journal
}

fn must_be_one_line(reason: &str, beginning: &str) {
    let one = reason.find('\n') == Some(reason.len().wrapping_sub(1));
    assert!(one && reason.starts_with(beginning), "{reason:?}, not {beginning:?}");
}

/// Of this journal under an edition, eight lines must have been written, or one on
/// standard error that tells the number of the refusal.
fn must_tell((said, reason): (Vec<u8>, String), edition: Edition, journal: &[u8]) {
    match add(edition.number(), &Report::FRESH, journal) {
        Ok(report) => {
            assert_eq!(String::from_utf8_lossy(&said), lines(&report));
            assert_eq!(reason, "");
        }
        Err(refusal) => {
            assert!(said.is_empty(), "{} bytes", said.len());
            must_be_one_line(&reason, &format!("report: refused with {refusal}: "));
        }
    }
}

/// So must it be in each way to ask.
fn must_report(program: &OsString, name: &str, journal: &[u8]) {
    for (arguments, edition) in ASKED {
        let child = start(program, arguments, input(name, journal), Stdio::piped());
        must_tell(written(child), edition, journal);
    }
}

/// It must write nothing but one line on standard error.
fn must_complain(program: &OsString, arguments: &[&str], input: File, beginning: &str) {
    let (said, reason) = written(start(program, arguments, input, Stdio::piped()));
    assert!(said.is_empty(), "{arguments:?}: {} bytes", said.len());
    must_be_one_line(&reason, beginning);
}

#[test]
fn the_sample_files_are_what_the_generator_writes() {
    for (name, bytes) in samples() {
        let stored = fs::read(project(name)).unwrap_or_else(|error| panic!("{name}: {error}"));
        assert!(stored == bytes, "{name} is not what `journal_sample` writes");
        assert!(bytes.len() < 2_048, "{name}: {} bytes", bytes.len());
    }
}

#[test]
fn the_journal_of_every_stored_feed() {
    let Some(program) = log_blocks() else { return };
    let mut blocks = 0;
    for number in 1..=50 {
        let text = fs::read(stored_feed(&file(number))).expect("a stored feed");
        blocks += must_log(&program, "a stored feed.txt", &text).len() / ENTRY - 1;
    }
    println!("blocks logged of the stored feeds: {blocks}");
}

/// One program behind the other, as anyone would run them.
#[test]
fn the_report_of_every_stored_feed() {
    let (Some(logger), Some(reporter)) = (log_blocks(), report_program()) else { return };
    for number in 1..=50 {
        for (arguments, edition) in ASKED {
            let feed = stored_feed(&file(number));
            let mut first = start(&logger, &[], open(&feed), Stdio::piped());
            let between = first.stdout.take().expect("a pipe");
            let second = start(&reporter, arguments, between, Stdio::piped());
            let journal = logged(&bits_in(&fs::read(&feed).expect("a stored feed")));
            must_tell(written(second), edition, &journal);
            assert_eq!(written(first).1, "", "{}", feed.display());
        }
    }
}

/// Longer than the longest run, in lines of a block, of any length or in one line, so
/// that the pieces that are read at a time fall anywhere.
#[test]
fn long_inputs() {
    let Some(program) = log_blocks() else { return };
    let mut random = Random::named("long inputs to be logged");
    let mut count = 0;
    for (round, edition) in (0..6).flat_map(|round| EDITIONS.map(|edition| (round, edition))) {
        let any = |random: &mut Random| MISHAPS[random.below(MISHAPS.len())];
        let mut bits = troubled(edition, &mut random, 150, [30, 100, 300][round % 3], any);
        let more = random.below(2_000);
        bits.extend(random.bits(more));
        assert!(bits.len() > RUN);
        let text = with_newlines(&bits, [51, 2, 1_000_000][round / 2 % 3], &mut random);
        must_log(&program, "long to be logged.txt", &text);
        count += bits.len();
    }
    report("bits through the program that logs", count);
}

/// Of inputs in which no block ends there is only the trailer.
#[test]
fn nothing_to_be_logged() {
    let Some(program) = log_blocks() else { return };
    let [part, no_block] = [format!("1{}", "0".repeat(48)), "0".repeat(70_000)];
    let block = format!("x1{}", "0".repeat(49));
    for text in ["", "\n\n", "x", "0\n1\n", &part, &no_block, &block] {
        let journal = must_log(&program, "nothing.txt", text.as_bytes());
        assert_eq!(journal, [0; ENTRY], "{text}");
    }
}

/// Anything but 0, 1 and a newline ends the input, and nothing behind it counts.
#[test]
fn any_other_character_ends_the_input() {
    let Some(program) = log_blocks() else { return };
    let text = Story::of(Edition::Of1984).lock().miss(2).characters();
    let journal = must_log(&program, "ended.txt", &text);
    assert_eq!(entries_of(&journal).last(), Some(&(0, 5)));
    for end in (0..=255).filter(|end| !b"01\n".contains(end)) {
        let bytes = [&text[..], &[end], &text].concat();
        assert!(must_log(&program, "ended.txt", &bytes) == journal, "ended by {end}");
    }
    for place in 0..=text.len() {
        let bytes = [&text[..place], b"\n", &text[place..]].concat();
        assert!(must_log(&program, "ended.txt", &bytes) == journal, "a newline at {place}");
    }
    let twice = must_log(&program, "ended.txt", &[&text[..], b"\n", &text].concat());
    assert_eq!(entries_of(&twice).last(), Some(&(0, 10)));
}

/// With anything before and behind the wanted entries; some of them with trailers
/// that are random too.
#[test]
fn random_journals() {
    const COUNT: usize = 300;
    let Some(program) = report_program() else { return };
    let mut random = Random::named("journals to be reported");
    let mut codes = [0; 16];
    for round in 0..COUNT {
        let wanted = random.below([3, 50, 3_000][round % 3]);
        let journal = Journal::with_gaps(&mut random, wanted);
        let trailer = (random.below(10) as u64 * 8, random.below(wanted + 8) as u64);
        let bytes = if round % 5 == 0 { journal.ending_in(trailer) } else { journal.bytes() };
        must_report(&program, "random journal", &bytes);
        if let Ok(report) = add(1984, &Report::FRESH, &bytes) {
            (0..16).for_each(|code| codes[code] += report.codes[code]);
        }
    }
    assert!(codes.iter().all(|&count| count > 0), "{codes:?}");
    report("journals through the program that reports", ASKED.len() * COUNT);
}

/// What would be refused among the wanted entries, or counted, is not looked at before
/// and behind them.
#[test]
fn unwanted_entries() {
    let Some(program) = report_program() else { return };
    let mut random = Random::named("unwanted entries");
    let unwanted = [(u64::MAX, u64::MAX), (70, block(7, 7)), (70, LARGEST + 1), (0, 0)];
    for place in 0..100 {
        let wanted = sound_entries(&mut random, place % 4);
        let counts = [place / 4 % 5, place / 20];
        let [before, behind] = counts.map(|count| bytes_of(&unwanted[..count]));
        let bytes = Journal { before, wanted, behind }.bytes();
        let told = add(1982, &Report::FRESH, &bytes).expect("a sound journal");
        assert_eq!(told.blocks, place as u64 % 4);
        must_report(&program, "unwanted entries", &bytes);
    }
}

/// There must be no report of this journal, for this reason.
fn must_refuse(program: &OsString, journal: &[u8], refusal: u8) {
    assert_eq!(add(1984, &Report::FRESH, journal), Err(refusal), "{journal:?}");
    must_report(program, "refused journal", journal);
}

#[test]
fn refused_journals() {
    let Some(program) = report_program() else { return };
    let sound = Journal::of(&[50, 100, 150].map(|number| (number, block(3, 0))));
    for len in [0, 1, 15, 16, 17, 32, 48, 63] {
        must_refuse(&program, &sound.bytes()[..len], WRONG_TRAILER);
    }
    for trailer in [(0, 4), (16, 3), (48, 1), (64, 0), (1, 1), (8, 1), (16, u64::MAX)] {
        must_refuse(&program, &sound.ending_in(trailer), WRONG_TRAILER);
    }
    let wide = LARGEST + 1;
    for number in [0, 49, 50] {
        must_refuse(&program, &journal_of(&[(50, 0), (number, LARGEST)]), NOT_RISING);
        must_refuse(&program, &journal_of(&[(50, 0), (number, wide)]), NOT_RISING);
        must_refuse(&program, &journal_of(&[(50, wide), (number, 0)]), NUMBER_TOO_WIDE);
    }
    must_refuse(&program, &journal_of(&[(0, u64::MAX)]), NUMBER_TOO_WIDE);
    must_refuse(&program, &journal_of(&[(50, 0), (51, wide)]), NUMBER_TOO_WIDE);
}

#[test]
fn a_wrong_edition_gets_a_line_on_standard_error() {
    let Some(program) = report_program() else { return };
    let journal = || open(&project("crates/report/stdin"));
    for text in NO_EDITIONS {
        must_complain(&program, &[text], journal(), "report: ");
    }
    for arguments in [&["1984", "1984"][..], &["1982", ""], &["1984", "1982", "1"]] {
        must_complain(&program, arguments, journal(), "report: ");
    }
}

/// The longest journal, through a pipe too, and longer ones, whatever is in them.
#[test]
fn the_longest_journal() {
    const TOO_LONG: &str = "report: the journal is longer than 6291456 bytes\n";
    let Some(program) = report_program() else { return };
    let mut random = Random::named("the longest journal");
    let all = sound_entries(&mut random, LONGEST / ENTRY);
    let longest = journal_of(&all[1..]);
    assert_eq!(longest.len(), LONGEST);
    must_report(&program, "longest journal", &longest);
    must_report(&program, "longest journal", &longest[..LONGEST - 1]);
    let piped = || start(&program, &[], Stdio::piped(), Stdio::piped());
    must_tell(written_of_pieces(piped(), &longest, 60_000), Edition::Of1984, &longest);
    let one_byte = [&longest[..], &[0]].concat();
    for longer in [&one_byte, &journal_of(&all), &anything(&mut random, LONGEST / 10)] {
        must_complain(&program, &[], input("longer journal", longer), TOO_LONG);
        let (said, reason) = written_of_pieces(piped(), longer, 60_000);
        assert_eq!((&said[..], &reason[..]), (&b""[..], TOO_LONG));
    }
    must_complain(&program, &[], open(Path::new("/dev/zero")), TOO_LONG);
}

/// What comes in pieces of any size is taken as from a file.
#[test]
fn through_a_pipe() {
    let mut random = Random::named("journals through a pipe");
    for (name, program) in programs() {
        let bits = troubled(Edition::Of1984, &mut random, 20, 6, |_| Mishap::Burst);
        let text = with_newlines(&bits, 51, &mut random);
        let bytes = if name == "report" { logged(&bits_in(&text)) } else { text };
        let from_file = written(start(&program, &[], input("piped", &bytes), Stdio::piped()));
        assert_eq!(from_file.1, "", "{name}");
        for size in [1, 7, 16, 1_000, 100_000] {
            let child = start(&program, &[], Stdio::piped(), Stdio::piped());
            assert!(written_of_pieces(child, &bytes, size) == from_file, "{name}: by {size}");
        }
    }
}

#[test]
fn a_failed_read_is_no_end() {
    for (name, program) in programs() {
        let reason = format!("{name}: standard input: Is a directory\n");
        must_complain(&program, &[], open(Path::new(env!("CARGO_TARGET_TMPDIR"))), &reason);
    }
}

/// The entries so far are left, and no trailer says that these are all.
#[test]
fn a_read_that_fails_later_leaves_no_trailer() {
    let Some(program) = log_blocks() else { return };
    let (feed, mut writer) = UnixStream::pair().expect("a pair of sockets");
    feed.set_read_timeout(Some(Duration::from_millis(300))).expect("a time to wait");
    let child = start(&program, &[], OwnedFd::from(feed), Stdio::piped());
    let text = Story::of(Edition::Of1984).lock().characters();
    writer.write_all(&text).expect("writing bits");
    let (entries, reason) = written(child);
    let journal = logged(&bits_in(&text));
    assert_eq!(entries, journal[..journal.len() - ENTRY]);
    assert_eq!(reason, "log_blocks: standard input: Resource temporarily unavailable\n");
}

/// To a full disk and to a standard output that is closed, once for each run.
#[test]
fn a_failed_write_is_told() {
    for (name, program) in programs() {
        let input = || open(&project(&format!("crates/{name}/stdin")));
        let full = File::options().write(true).open("/dev/full").expect("/dev/full");
        let reason = written(start(&program, &[], input(), full)).1;
        assert_eq!(reason, format!("{name}: standard output: No space left on device\n"));
        let closing = ["-c", "exec \"$0\" >&-", program.to_str().expect("characters")];
        let reason = written(start(&"sh".into(), &closing, input(), Stdio::null())).1;
        assert_eq!(reason, format!("{name}: standard output: Bad file descriptor\n"));
    }
}
