//! The test generator, beside an independent feed and before the receiver, in
//! both editions.

use std::ffi::OsString;
use std::fs;
use std::iter::{once, repeat, successors};
use std::path::Path;
use std::process::{Command, Output};
use std::time::{Duration, Instant};

use harness::compare::{dating, Receiver};
use harness::face::{Date, Record, CANDIDATE, CONFIRMED, NO_TIME};
use harness::feeds::plain;
use harness::independent::calendar::{coded_year, days_with_record, minute_after, record_of_date};
use harness::independent::{read, record, Edition, BLOCK, EDITIONS};
use harness::program::{generator, output, product, project};

/// The generator, or a line that says that it was not compared.
fn transmit() -> Option<OsString> {
    if generator().is_none() {
        println!("TRANSMIT_BIN is not set: the product's generator was NOT compared");
    }
    generator()
}

fn run(program: &OsString, arguments: &[&str]) -> Output {
    Command::new(program).args(arguments).output().expect("the generator runs")
}

/// What it writes; nothing may be said on standard error.
fn sent(program: &OsString, arguments: &[&str]) -> String {
    let output = run(program, arguments);
    assert_eq!(String::from_utf8_lossy(&output.stderr), "", "{arguments:?}");
    String::from_utf8(output.stdout).expect("characters")
}

/// The same in an edition, with as many blocks damaged.
fn sent_in(program: &OsString, edition: Edition, arguments: [&str; 4], damaged: &str) -> String {
    let more = [damaged, "1", &edition.number().to_string()];
    sent(program, &[&arguments[..], &more].concat())
}

/// A feed as the independent sender has it.
fn expected(edition: Edition, first: Date, minutes: usize) -> String {
    plain(edition, record_of_date(edition, first).expect("a record"), minutes)
}

fn date(year: u16, month: u8, day: u8, hour: u8, minute: u8, offset: i8) -> Date {
    Date { year, month, day, hour, minute, offset }
}

fn bits_in(text: &str) -> Vec<u8> {
    text.bytes().filter(|&byte| byte != b'\n').collect()
}

#[test]
fn clean_feeds() {
    let Some(program) = transmit() else { return };
    for (arguments, first, minutes) in [
        (["1986-01-01", "12:34", "2", "5"], date(1986, 1, 1, 12, 34, 2), 5),
        (["1900-12-31", "00:00", "0", "1"], date(1900, 12, 31, 0, 0, 0), 1),
        (["2100-01-03", "23:59", "-32", "1"], date(2100, 1, 3, 23, 59, -32), 1),
        (["2000-02-28", "23:00", "31", "1500"], date(2000, 2, 28, 23, 0, 31), 1500),
        (["1986-12-28", "23:58", "-2", "4"], date(1986, 12, 28, 23, 58, -2), 4),
        (["2024-02-29", "09:59", "-0", "2"], date(2024, 2, 29, 9, 59, 0), 2),
    ] {
        let without_edition = sent(&program, &arguments);
        assert!(without_edition == expected(Edition::Of1984, first, minutes), "{arguments:?}");
        for edition in EDITIONS {
            let feed = sent_in(&program, edition, arguments, "0");
            assert!(feed == expected(edition, first, minutes), "{arguments:?}, {edition:?}");
        }
    }
}

/// The stored output is the independent feed, not the generator's own.
#[test]
fn the_stored_feed() {
    let feed = expected(Edition::Of1984, date(1986, 1, 1, 12, 34, 2), 3);
    let arguments = fs::read_to_string(project("crates/transmit/args")).expect("arguments");
    assert_eq!(arguments, "1986-01-01\n12:34\n2\n3\n");
    let stored = fs::read_to_string(project("crates/transmit/stdout")).expect("a feed");
    assert!(stored == feed, "crates/transmit/stdout is not what `plain` writes");
}

/// The bits of a line.
fn bits_of_line(line: &str) -> Vec<u8> {
    line.bytes().map(|byte| byte - b'0').collect()
}

/// What the last block of a minute tells.
fn told(edition: Edition, minute: &str) -> Record {
    let bits = bits_of_line(minute);
    let (code, word) = read(&bits[bits.len() - BLOCK..]).expect("a good block");
    record::read(edition, code, word).expect("a time block")
}

/// The year of the date and that of the week begin on different days. The leap
/// codes are those of 1984 and of 1982.
#[test]
fn feeds_over_the_new_years_of_1982_1987_2012_and_2013() {
    let Some(program) = transmit() else { return };
    for (last_day, leap_codes, start_day, week, weekday) in [
        ("1981-12-31", [1, 2], 4, 53, 5),
        ("1982-01-03", [2, 0], 5, 1, 1),
        ("1986-12-28", [3, 1], 4, 1, 1),
        ("1986-12-31", [3, 1], 4, 1, 4),
        ("2011-12-31", [3, 1], 6, 52, 7),
        ("2012-01-01", [0, 3], 7, 1, 1),
        ("2012-12-30", [1, 2], 2, 1, 1),
        ("2012-12-31", [1, 2], 2, 1, 2),
    ] {
        for (edition, leap) in EDITIONS.into_iter().zip(leap_codes) {
            let feed = sent_in(&program, edition, [last_day, "23:58", "-2", "4"], "0");
            let behind_midnight = feed.lines().skip(2).map(|minute| told(edition, minute));
            let midnight =
                Record { leap, start_day, week, weekday, hour: 0, minute: 0, offset: -2 };
            let expected = [midnight, Record { minute: 1, ..midnight }];
            assert!(behind_midnight.eq(expected), "after {last_day}, {edition:?}");
        }
    }
}

/// A day as an argument.
fn text_of(day: Date) -> String {
    format!("{}-{:02}-{:02}", day.year, day.month, day.day)
}

#[test]
fn feeds_over_every_new_year() {
    let Some(program) = transmit() else { return };
    let mut count = 0;
    for day in days_with_record() {
        let last = Date { hour: 23, minute: 59, ..day };
        let next = minute_after(last);
        if (next.year, coded_year(next)) != (day.year, coded_year(day)) {
            for edition in EDITIONS {
                let feed = sent_in(&program, edition, [&text_of(day), "23:59", "0", "2"], "0");
                assert!(feed == expected(edition, last, 2), "{day:?}, {edition:?}");
                count += 1;
            }
        }
    }
    println!("feeds over new years, of the date or of the week: {count} compared");
}

/// What a receiver under an edition holds at the end of each line of a feed: how
/// the time stands, and the date it tells within 28 years from this one on.
fn held(edition: Edition, feed: &str, first_year: u16) -> Vec<(u8, Option<Date>)> {
    let mut receiver = Receiver::fresh(edition);
    let after = |line| {
        receiver.run(&bits_of_line(line));
        let state = receiver.state();
        let told = (state.time != NO_TIME).then_some(state.record);
        (state.time, told.and_then(|record| dating(edition, record, first_year).ok()))
    };
    feed.lines().map(after).collect()
}

/// The last days of coded years of every kind, one of them leap with 53 weeks, the
/// last of a civil year, and others.
const TAPES: [(u16, u8, u8); 8] = [
    (1982, 1, 3),
    (1983, 1, 2),
    (1984, 1, 1),
    (1984, 12, 30),
    (1993, 1, 3),
    (1981, 12, 31),
    (1984, 2, 28),
    (1982, 6, 1),
];

/// Each minute of a tape is confirmed and dated as it was sent, under its own
/// edition; under the other one none tells that date.
#[test]
fn a_tape_tells_its_dates_under_its_own_edition_alone() {
    let Some(program) = transmit() else { return };
    for (year, month, day) in TAPES {
        let first = date(year, month, day, 23, 50, 0);
        let dates = successors(Some(first), |&date| Some(minute_after(date)));
        let times = once(CANDIDATE).chain(repeat(CONFIRMED));
        let told: Vec<_> = times.zip(dates.map(Some)).take(20).collect();
        for edition in EDITIONS {
            let feed = sent_in(&program, edition, [&text_of(first), "23:50", "0", "20"], "0");
            assert_eq!(held(edition, &feed, 1970), told, "{first:?}, {edition:?}");
            let misread = held(edition.other(), &feed, 1970);
            assert!(misread.iter().any(|&(time, _)| time == CONFIRMED), "{first:?}, {edition:?}");
            let mut pairs = misread.iter().zip(&told);
            assert!(pairs.all(|(one, other)| one.1 != other.1), "{first:?}, {edition:?}");
        }
    }
}

/// How many bits of each block were changed.
fn changes(clean: &[u8], damaged: &[u8]) -> Vec<usize> {
    let blocks = clean.chunks(BLOCK).zip(damaged.chunks(BLOCK));
    let changed = |(was, is): (&[u8], &[u8])| was.iter().zip(is).filter(|(a, b)| a != b).count();
    blocks.map(changed).collect()
}

#[test]
fn as_many_blocks_are_damaged_as_asked() {
    const FEED: [&str; 4] = ["1986-01-01", "12:34", "2", "20"];
    let Some(program) = transmit() else { return };
    for edition in EDITIONS {
        let clean = bits_in(&sent_in(&program, edition, FEED, "0"));
        let mut places = Vec::new();
        for damaged in ["0", "1", "7", "100", "600"] {
            for seed in ["1", "2", "0", "9999999"] {
                let more = [damaged, seed, &edition.number().to_string()];
                let arguments = [&FEED[..], &more].concat();
                let bits = bits_in(&sent(&program, &arguments));
                assert_eq!(bits, bits_in(&sent(&program, &arguments)), "{arguments:?}");
                let counts = changes(&clean, &bits);
                assert!(counts.iter().all(|&count| count <= 1), "{arguments:?}");
                assert_eq!(counts.iter().sum::<usize>().to_string(), damaged, "{arguments:?}");
                places.push((damaged, counts));
            }
        }
        // Another seed damages other blocks.
        let hundreds: Vec<_> = places.iter().filter(|(damaged, _)| *damaged == "100").collect();
        assert!(hundreds.windows(2).all(|pair| pair[0].1 != pair[1].1));
    }
}

/// A full disk is told once, with the reason, and the feed ends there: a whole one takes seconds.
#[test]
fn a_failed_write_is_told() {
    let Some(program) = transmit() else { return };
    let full = fs::OpenOptions::new().write(true).open("/dev/full").expect("a full disk");
    let start = Instant::now();
    let output = Command::new(&program)
        .args(["1986-01-01", "12:34", "2", "65535"])
        .stdout(full)
        .output()
        .expect("the generator runs");
    let took = start.elapsed();
    let said = String::from_utf8_lossy(&output.stderr).into_owned();
    assert_eq!(said, "transmit: standard output: No space left on device\n");
    assert!(took < Duration::from_secs(1), "{took:?}");
}

#[test]
fn the_receiver_follows_it() {
    let (Some(program), Some(receiver)) = (transmit(), product()) else { return };
    let path = Path::new(env!("CARGO_TARGET_TMPDIR")).join("sent.txt");
    for damaged in ["0", "1", "100", "400"] {
        for edition in EDITIONS {
            let text = sent_in(&program, edition, ["1999-12-31", "23:50", "0", "20"], damaged);
            fs::write(&path, &text).expect("a file");
            let printed = output(&mut Command::new(&receiver), &path);
            let expected = output(&mut Command::new(env!("CARGO_BIN_EXE_reference")), &path);
            assert_eq!(printed, expected, "{damaged} damaged, {edition:?}");
            if damaged == "0" {
                assert_eq!(printed, "LOCK 150\nEND 30000 600 0 0 0\n");
            }
        }
    }
}

/// The arguments by their names, with texts that are none of them.
const WRONG: [(&str, &[&str]); 7] = [
    (
        "DATE",
        &[
            "",
            "1986",
            "1986-1-1",
            "1986/01/01",
            "1899-12-31",
            "1900-02-29",
            "1900-12-30",
            "2100-01-04",
            "2100-02-29",
            "2101-01-01",
            "1986-13-01",
            "1986-02-29",
            "1986-12-32",
            "1986-01-01-01-01-01-01",
            "x986-01-01",
            "18ab-01-01",
        ],
    ),
    ("TIME", &["", "1234", "24:00", "12:60", "12:3", "1a:00", "12.34"]),
    ("OFFSET", &["", "32", "-33", "x", "-", "1-", "99999999999999999999", "256"]),
    ("MINUTES", &["", "0", "-1", "65536", "x", "5x", "4294967297"]),
    ("DAMAGED", &["", "151", "-1", "x", "4294967297"]),
    ("SEED", &["", "-1", "x", "99999999", "10000000"]),
    // 67518 and 4294969278 are 1982 in 16 and in 32 bits.
    (
        "EDITION",
        &[
            "",
            "0",
            "1",
            "82",
            "1981",
            "1983",
            "1985",
            "19820",
            "198",
            "abc",
            "1982x",
            "x1982",
            "-1982",
            "1982-",
            "67518",
            "67520",
            "4294969278",
        ],
    ),
];

#[test]
fn wrong_arguments_are_named() {
    let Some(program) = transmit() else { return };
    for edition in EDITIONS {
        let right = ["1986-01-01", "12:34", "2", "5", "3", "1", &edition.number().to_string()];
        for (place, (name, texts)) in WRONG.iter().enumerate() {
            for text in texts.iter() {
                let mut arguments = right;
                arguments[place] = text;
                let output = run(&program, &arguments);
                let said = String::from_utf8_lossy(&output.stderr).into_owned();
                assert!(output.stdout.is_empty(), "{arguments:?}");
                assert!(
                    said.starts_with(&format!("transmit: {name}: expected ")),
                    "{arguments:?}: {said}"
                );
                assert_eq!(said.matches('\n').count(), 1, "{said}");
            }
        }
        for count in [0, 1, 2, 3, 8] {
            let output = run(&program, &[&right[..], &["1"]].concat()[..count]);
            assert!(output.stdout.is_empty());
            assert!(String::from_utf8_lossy(&output.stderr)
                .starts_with("transmit: expected DATE TIME OFFSET MINUTES"));
        }
    }
}
