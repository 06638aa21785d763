//! The receiver program: the independent one on what document 01 states, the
//! product's beside it, and the stored sample.

use std::fmt::Write as _;
use std::fs::{self, File};
use std::io::Write as _;
use std::os::fd::OwnedFd;
use std::os::unix::net::UnixStream;
use std::path::{Path, PathBuf};
use std::process::{Child, Command, Stdio};
use std::thread::sleep;
use std::time::Duration;

use harness::face::{CONFIRMED, LOCKED};
use harness::feeds::{troubled, with_newlines, MISHAPS};
use harness::independent::calendar::date_of_record;
use harness::independent::receiver::History;
use harness::independent::{Edition, EDITIONS};
use harness::program::{example, output, printed, product};
use harness::random::{report, Random};

/// What document 01 states: a lock, and nothing left over.
const STATED: &str = "LOCK 150\nEND 150 3 0 0 0\n";

fn stored(name: &str) -> String {
    fs::read_to_string(example(name)).unwrap_or_else(|error| panic!("{name}: {error}"))
}

/// A file that holds these bytes.
fn input(name: &str, bytes: &[u8]) -> PathBuf {
    let path = Path::new(env!("CARGO_TARGET_TMPDIR")).join(name);
    fs::write(&path, bytes).unwrap_or_else(|error| panic!("{}: {error}", path.display()));
    path
}

/// What the independent program prints; the product's must print the same.
fn receive(input: &Path) -> String {
    let expected = output(&mut Command::new(env!("CARGO_BIN_EXE_reference")), input);
    if let Some(product) = product() {
        let printed = output(&mut Command::new(product), input);
        assert_eq!(printed, expected, "receiving {}", input.display());
    }
    expected
}

#[test]
fn the_stated_example() {
    let block = format!("1{}", "0".repeat(49));
    let line = format!("{block}\n");
    for text in [block.repeat(3), line.repeat(3), line.repeat(3) + "\n\n"] {
        assert_eq!(receive(&input("stated.txt", text.as_bytes())), STATED);
        // Anything but 0, 1 and a newline ends the input, and nothing behind it counts.
        for end in [b'\r', b' ', b'2', b'/', b'x', 0, 255] {
            let bytes = [text.as_bytes(), &[end], text.as_bytes()].concat();
            assert_eq!(receive(&input("ended.txt", &bytes)), STATED, "ended by {end}");
        }
    }
}

#[test]
fn short_inputs() {
    for (text, end) in [
        ("", "END 0 0 0 0 0\n"),
        ("\n\n", "END 0 0 0 0 0\n"),
        ("x", "END 0 0 0 0 0\n"),
        ("1", "END 1 0 0 0 1\n"),
        ("0\n1\n0", "END 3 0 0 0 3\n"),
    ] {
        assert_eq!(receive(&input("short.txt", text.as_bytes())), end, "{text:?}");
    }
}

#[test]
fn the_sample() {
    let sample = output(&mut Command::new(env!("CARGO_BIN_EXE_sample")), &input("none", b""));
    assert!(sample == stored("feed.txt"), "examples/feed.txt is not what `sample` writes");
    assert_eq!(receive(&example("feed.txt")), stored("feed.out"));
}

/// What the example in C shows, from the history of the sample.
#[test]
fn the_times_of_the_sample() {
    let mut history = History::fresh(Edition::Of1984);
    let mut shown = String::new();
    for bit in stored("feed.txt").bytes().take_while(|&byte| byte != b'x') {
        if bit == b'\n' {
            continue;
        }
        history.hear(bit - b'0');
        let state = history.state();
        if (state.mode, state.time, state.age, state.waiting) == (LOCKED, CONFIRMED, 0, 0) {
            let date = date_of_record(Edition::Of1984, state.record, 1970).expect("a date");
            writeln!(
                shown,
                "bit {}: {:04}-{:02}-{:02} {:02}:{:02} UTC, offset {}",
                history.heard(),
                date.year,
                date.month,
                date.day,
                date.hour,
                date.minute,
                date.offset
            )
            .expect("writing to a string");
        }
    }
    assert_eq!(shown, stored("show_time.expected"));
}

#[test]
fn long_inputs() {
    let mut random = Random::named("inputs");
    let mut count = 0;
    for (round, edition) in (0..20).flat_map(|round| EDITIONS.map(|edition| (round, edition))) {
        let any = |random: &mut Random| MISHAPS[random.below(MISHAPS.len())];
        let mut bits = troubled(edition, &mut random, 150, 100, any);
        bits.extend(random.bits(100_000));
        // Lines of a block, of any length, or none.
        let often = [51, 2, 1_000_000][round % 3];
        let text = with_newlines(&bits, often, &mut random);
        let printed = receive(&input("long.txt", &text));
        assert!(printed.starts_with("LOCK") && printed.contains("LOST"));
        count += bits.len();
    }
    match product() {
        Some(_) => report("bits through the product's program", count),
        None => println!("RECEIVE_BIN is not set: the product's program was NOT compared"),
    }
}

/// The product's program, started with these as its standard input and output, if it is there.
fn start(input: impl Into<Stdio>, output: impl Into<Stdio>) -> Option<Child> {
    let Some(product) = product() else {
        println!("RECEIVE_BIN is not set: the product's program was NOT run");
        return None;
    };
    let child = Command::new(product).stdin(input).stdout(output).stderr(Stdio::piped()).spawn();
    Some(child.unwrap_or_else(|error| panic!("the product's program: {error}")))
}

/// A feed that waits this long for more, and the end that writes it.
fn waiting_feed(patience: Duration) -> (OwnedFd, UnixStream) {
    let (feed, writer) = UnixStream::pair().expect("a pair of sockets");
    feed.set_read_timeout(Some(patience)).expect("a time to wait");
    (feed.into(), writer)
}

/// What document 01 states the answer to.
fn stated_blocks() -> String {
    format!("1{}\n", "0".repeat(49)).repeat(3)
}

#[test]
fn a_failed_read_is_no_end() {
    let directory = File::open(env!("CARGO_TARGET_TMPDIR")).expect("a directory");
    if let Some(child) = start(directory, Stdio::piped()) {
        let (lines, reason) = printed(child);
        assert_eq!(lines, "");
        assert_eq!(reason, "receive: standard input: Is a directory\n");
    }
}

#[test]
fn a_read_that_fails_later_leaves_the_lines() {
    let (feed, mut writer) = waiting_feed(Duration::from_millis(300));
    if let Some(child) = start(feed, Stdio::piped()) {
        writer.write_all(stated_blocks().as_bytes()).expect("writing bits");
        let (lines, reason) = printed(child);
        assert_eq!(lines, "LOCK 150\n");
        assert_eq!(reason, "receive: standard input: Resource temporarily unavailable\n");
    }
}

/// Also where there is much more to read, and to tell, after it.
#[test]
fn a_failed_write_is_told_once() {
    let long = Path::new(env!("CARGO_TARGET_TMPDIR")).join("comes and goes");
    let comes_and_goes = stated_blocks() + &"0".repeat(200);
    fs::write(&long, comes_and_goes.repeat(1000)).expect("writing a feed");
    for feed in [example("feed.txt"), example("feed.out"), long] {
        let full = File::options().write(true).open("/dev/full").expect("/dev/full");
        let input = File::open(&feed).expect("a feed");
        if let Some(child) = start(input, full) {
            let reason = printed(child).1;
            assert_eq!(reason, "receive: standard output: No space left on device\n");
        }
    }
}

/// A stopped and resumed program finds its read interrupted, since the feed has a time to wait.
#[test]
fn an_interrupted_read_is_taken_up_again() {
    let (feed, mut writer) = waiting_feed(Duration::from_secs(60));
    let Some(child) = start(feed, Stdio::piped()) else { return };
    for _ in 0..3 {
        until(&child, 'S');
        signal(&child, "STOP");
        until(&child, 'T');
        signal(&child, "CONT");
    }
    until(&child, 'S');
    writer.write_all(stated_blocks().as_bytes()).expect("writing bits");
    drop(writer);
    assert_eq!(printed(child), (STATED.to_string(), String::new()));
}

fn signal(child: &Child, name: &str) {
    let kill = format!("kill -{name} {}", child.id());
    let status = Command::new("sh").args(["-c", &kill]).status();
    assert!(status.is_ok_and(|status| status.success()), "{kill}");
}

/// Waits until the program is in this state: S is asleep, T is stopped.
fn until(child: &Child, state: char) {
    for _ in 0..1000 {
        let stat = fs::read_to_string(format!("/proc/{}/stat", child.id()));
        let stat = stat.expect("the program's state");
        if stat.rsplit(") ").next().is_some_and(|rest| rest.starts_with(state)) {
            return;
        }
        sleep(Duration::from_millis(10));
    }
    panic!("the program did not come into state {state}");
}
