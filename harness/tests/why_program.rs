//! The program that says why a dial is blank: its line for the fifty stored feeds
//! and for long inputs, beside the independent answer, and what it does with
//! arguments that are none. Also what the example in C must print.

use std::collections::BTreeSet;
use std::ffi::OsString;
use std::fmt::Write as _;
use std::fs::{self, File};
use std::path::{Path, PathBuf};
use std::process::{Command, Output, Stdio};

use harness::face::{Date, Record};
use harness::feeds::{
    bits_of_all, empty_filler, plain, time_block, troubled, with_newlines, MINUTE, MISHAPS,
};
use harness::independent::calendar::{next_minute, record_of_date};
use harness::independent::receiver::RUN;
use harness::independent::watch::{after_input, Watched, Why};
use harness::independent::{Edition, EDITIONS};
use harness::program::{example, explainer, stored_feed, NO_EDITIONS};
use harness::random::{report, Random};
use harness::stored::{all, file, list, Stored, LIST};
use harness::stories::Story;

/// The program, or a line that says that it was not run.
fn why() -> Option<OsString> {
    if explainer().is_none() {
        println!("WHY_BIN is not set: the product's program was NOT run");
    }
    explainer()
}

fn read(path: &Path) -> Vec<u8> {
    fs::read(path).unwrap_or_else(|error| panic!("{}: {error}", path.display()))
}

/// A file that holds these bytes.
fn input(name: &str, bytes: &[u8]) -> PathBuf {
    let path = Path::new(env!("CARGO_TARGET_TMPDIR")).join(name);
    fs::write(&path, bytes).unwrap_or_else(|error| panic!("{}: {error}", path.display()));
    path
}

fn run(program: &OsString, arguments: &[&str], input: &Path, output: impl Into<Stdio>) -> Output {
    let file = File::open(input).unwrap_or_else(|error| panic!("{}: {error}", input.display()));
    let mut command = Command::new(program);
    let child = command.args(arguments).stdin(file).stdout(output).stderr(Stdio::piped()).spawn();
    let child = child.unwrap_or_else(|error| panic!("{command:?}: {error}"));
    child.wait_with_output().unwrap_or_else(|error| panic!("{command:?}: {error}"))
}

/// What a run printed: its standard output and its standard error.
fn printed(output: Output) -> (String, String) {
    let text = |bytes| String::from_utf8(bytes).expect("characters");
    (text(output.stdout), text(output.stderr))
}

/// It must print this line, nothing else, and nothing on standard error.
fn must_say(program: &OsString, arguments: &[&str], input: &Path, line: &str) {
    let output = run(program, arguments, input, Stdio::piped());
    assert!(output.status.success(), "{arguments:?} < {}", input.display());
    let expected = (format!("{line}\n"), String::new());
    assert_eq!(printed(output), expected, "{arguments:?} < {}", input.display());
}

/// It must print nothing, and one line on standard error.
fn must_complain(program: &OsString, arguments: &[&str], input: &Path) {
    let (said, reason) = printed(run(program, arguments, input, Stdio::piped()));
    assert_eq!(said, "", "{arguments:?}");
    assert!(reason.starts_with("why: ") && reason.ends_with('\n'), "{arguments:?}: {reason:?}");
    assert_eq!(reason.lines().count(), 1, "{arguments:?}: {reason:?}");
}

#[test]
fn the_stored_feeds_are_what_the_generator_makes() {
    let all = all();
    assert_eq!(all.len(), 50);
    for (number, stored) in (1..).zip(&all) {
        let path = stored_feed(&file(number));
        assert!(read(&path) == stored.text, "{} is not what `stored` writes", path.display());
    }
    let listed = String::from_utf8(read(&stored_feed(LIST))).expect("characters");
    assert_eq!(listed, list(&all));
    let size: usize = all.iter().map(|stored| stored.text.len()).sum();
    assert!(size < 400_000, "{size} bytes");
}

#[test]
fn the_stored_feeds_end_in_each_of_the_seven_ways() {
    for edition in EDITIONS {
        let stored = all().into_iter().filter(|stored| stored.edition == edition);
        let ways: BTreeSet<&str> = stored.map(|stored| stored.why.words()).collect();
        assert_eq!(ways.len(), 7, "{edition:?}: {ways:?}");
    }
    let bits = |stored: &Stored| stored.text.iter().filter(|&&byte| byte != b'\n').count();
    assert!(all().iter().any(|stored| bits(stored) > RUN));
}

/// As each was made to end, so it ends by the list of what happened.
#[test]
fn the_stored_feeds_end_as_they_were_made_to() {
    for (number, stored) in (1..).zip(all()) {
        assert_eq!(after_input(stored.edition, &stored.text), stored.why, "{}", file(number));
    }
}

/// From the files and their list, as anyone would run it.
#[test]
fn the_line_of_every_stored_feed() {
    let Some(program) = why() else { return };
    let listed = String::from_utf8(read(&stored_feed(LIST))).expect("characters");
    for entry in listed.lines() {
        let mut parts = entry.splitn(3, ' ');
        let [name, edition, line] = [(); 3].map(|()| parts.next().expect("three parts"));
        let arguments = if edition == "-" { vec![] } else { vec![edition] };
        must_say(&program, &arguments, &stored_feed(name), line);
    }
    println!("stored feeds through the product's program: {}", listed.lines().count());
}

/// The same blocks under one edition and under the other, told and not told.
#[test]
fn the_edition_decides() {
    let Some(program) = why() else { return };
    for edition in EDITIONS {
        let tape = plain(edition, Story::of(edition).told(0), 3).into_bytes();
        let path = input(&format!("tape {}.txt", edition.number()), &tape);
        let [of_1984, of_1982] = EDITIONS.map(|edition| after_input(edition, &tape).line());
        must_say(&program, &["1984"], &path, &of_1984);
        must_say(&program, &["1982"], &path, &of_1982);
        must_say(&program, &[], &path, &of_1984);
        assert_ne!(of_1984, of_1982);
    }
}

/// Longer than the longest run, in lines of a block, of any length or in one line, so
/// that the pieces that are read at a time fall anywhere.
#[test]
fn long_inputs() {
    let Some(program) = why() else { return };
    let mut random = Random::named("long inputs");
    let mut count = 0;
    for (round, edition) in (0..12).flat_map(|round| EDITIONS.map(|edition| (round, edition))) {
        let any = |random: &mut Random| MISHAPS[random.below(MISHAPS.len())];
        let mut bits = troubled(edition, &mut random, 150, [30, 100, 300][round % 3], any);
        let more = random.below(2_000);
        bits.extend(random.bits(more));
        assert!(bits.len() > RUN);
        let often = [51, 2, 1_000_000][round / 2 % 3];
        let text = with_newlines(&bits, often, &mut random);
        let path = input(&format!("long {}.txt", edition.number()), &text);
        let line = after_input(edition, &text).line();
        must_say(&program, &[&edition.number().to_string()], &path, &line);
        count += bits.len();
    }
    report("bits through the program that says why", count);
}

/// Over the longest run and over the pieces that are read at a time: a story with
/// zeros before it, of whose end the bit is known.
#[test]
fn the_bit_is_told_over_long_inputs() {
    let Some(program) = why() else { return };
    for zeros in [RUN - 151, RUN - 150, RUN - 149, RUN, 2 * RUN - 350, 2 * RUN - 349, 1_000_000] {
        for edition in EDITIONS {
            let story = Story::of(edition).zeros(zeros).lock().lose().zeros(10);
            assert_eq!(story.end(), Why::LockLost(zeros as u64 + 350));
            let path = input(&format!("late {}.txt", edition.number()), &story.characters());
            must_say(&program, &[&edition.number().to_string()], &path, &story.end().line());
        }
    }
}

/// Anything but 0, 1 and a newline ends the input, and nothing behind it counts.
#[test]
fn any_other_character_ends_the_input() {
    let Some(program) = why() else { return };
    let text = Story::of(Edition::Of1984).lock().begin(0).miss(1).characters();
    for end in (0..=255).filter(|end| !b"01\n".contains(end)) {
        let bytes = [&text[..], &[end], &[b'0'; 300]].concat();
        must_say(&program, &[], &input("ended why.txt", &bytes), "candidate too young");
    }
    let zeros = [&text[..], b"\n", &[b'0'; 200]].concat();
    must_say(&program, &[], &input("ended why.txt", &zeros), "lock lost at bit 450");
}

/// A minute as the example in C has it.
fn minute_of_example(told: Record, how: char) -> Vec<u8> {
    let sent = match how {
        '?' => time_block(Record { hour: (told.hour + 1) % 24, ..told }),
        '0' => time_block(told) ^ 1 << 29,
        _ => time_block(told),
    };
    let mut blocks = [empty_filler(Edition::Of1984); MINUTE];
    blocks[MINUTE - 1] = sent;
    if how == '-' {
        blocks.fill(0);
    }
    bits_of_all(&blocks)
}

/// What the example in C says, from the list of what happened in its minutes.
#[test]
fn the_minutes_of_the_example() {
    let text = |name| String::from_utf8(read(&example(name))).expect("characters");
    let edition = Edition::Of1984;
    let date = Date { year: 1986, month: 1, day: 1, hour: 12, minute: 34, offset: 0 };
    let mut told = record_of_date(edition, date).expect("a record");
    let mut watched = Watched::fresh(edition);
    let mut said = String::new();
    for how in text("why.args").trim_end().chars() {
        minute_of_example(told, how).into_iter().for_each(|bit| watched.hear(bit));
        let words = match how {
            '1' => "came",
            '0' => "lost",
            '?' => "another hour",
            _ => "silent",
        };
        let Record { hour, minute, .. } = told;
        writeln!(said, "{hour:02}:{minute:02} {words}: {}", watched.why().line())
            .expect("writing to a string");
        told = next_minute(edition, told).expect("minutes to come");
    }
    assert_eq!(said, text("why.expected"));
}

#[test]
fn a_wrong_edition_gets_a_line_on_standard_error() {
    let Some(program) = why() else { return };
    let feed = stored_feed(&file(18));
    for text in NO_EDITIONS {
        must_complain(&program, &[text], &feed);
    }
    must_complain(&program, &["1984", "1984"], &feed);
    must_complain(&program, &["1982", ""], &feed);
}

#[test]
fn a_failed_read_is_no_end() {
    let Some(program) = why() else { return };
    must_complain(&program, &[], Path::new(env!("CARGO_TARGET_TMPDIR")));
}

#[test]
fn a_failed_write_is_told() {
    let Some(program) = why() else { return };
    let full = File::options().write(true).open("/dev/full").expect("/dev/full");
    let output = run(&program, &[], &stored_feed(&file(6)), full);
    assert_eq!(printed(output).1, "why: standard output: No space left on device\n");
}
