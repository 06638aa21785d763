//! The programs: a receiver run on an input file, the one that says why a dial is
//! blank, the one that logs blocks, the one that reports on a journal, and the
//! product's generator.

use std::env;
use std::ffi::OsString;
use std::fs::{self, File};
use std::io::Write as _;
use std::path::{Path, PathBuf};
use std::process::{Child, Command, Stdio};
use std::thread::scope;

/// The product's program, if `RECEIVE_BIN` names it.
pub fn product() -> Option<OsString> {
    env::var_os("RECEIVE_BIN")
}

/// The product's program that says why a dial is blank, if `WHY_BIN` names it.
pub fn explainer() -> Option<OsString> {
    env::var_os("WHY_BIN")
}

/// The product's program that logs the blocks of a receiver, if `LOG_BLOCKS_BIN`
/// names it.
pub fn logger() -> Option<OsString> {
    env::var_os("LOG_BLOCKS_BIN")
}

/// The product's program that reports on a journal, if `REPORT_BIN` names it.
pub fn reporter() -> Option<OsString> {
    env::var_os("REPORT_BIN")
}

/// The product's test generator, if `TRANSMIT_BIN` names it.
pub fn generator() -> Option<OsString> {
    env::var_os("TRANSMIT_BIN")
}

/// Arguments that name no edition. 67518 and 4294969278 are 1982 in 16 and in 32 bits.
pub const NO_EDITIONS: [&str; 21] = [
    "",
    "0",
    "1",
    "82",
    "84",
    "1981",
    "1983",
    "1985",
    "19820",
    "198",
    "abc",
    "1982x",
    "x1984",
    "-1982",
    "1984-",
    " 1984",
    "1984 ",
    "67518",
    "67520",
    "4294969278",
    "18446744073709553600",
];

/// All that the program prints with this file as its standard input.
pub fn output(program: &mut Command, input: &Path) -> String {
    let file = File::open(input).unwrap_or_else(|error| panic!("{}: {error}", input.display()));
    let output = program.stdin(file).stderr(Stdio::inherit()).output();
    let output = output.unwrap_or_else(|error| panic!("{program:?}: {error}"));
    assert!(output.status.success(), "{program:?}: {}", output.status);
    String::from_utf8(output.stdout).unwrap_or_else(|error| panic!("{program:?}: {error}"))
}

/// What the started program prints until it ends: its standard output, if that is a pipe, and its standard error.
pub fn printed(child: Child) -> (String, String) {
    let (lines, reason) = written(child);
    (String::from_utf8(lines).unwrap_or_else(|error| panic!("{error}")), reason)
}

/// The program, started with these as its standard input and output.
pub fn start(
    program: &OsString,
    arguments: &[&str],
    input: impl Into<Stdio>,
    output: impl Into<Stdio>,
) -> Child {
    let mut command = Command::new(program);
    let child = command.args(arguments).stdin(input).stdout(output).stderr(Stdio::piped()).spawn();
    child.unwrap_or_else(|error| panic!("{command:?}: {error}"))
}

/// What the started program writes until it ends: its standard output, if that is a
/// pipe, as bytes, and its standard error.
pub fn written(child: Child) -> (Vec<u8>, String) {
    let output = child.wait_with_output().unwrap_or_else(|error| panic!("waiting: {error}"));
    assert!(output.status.success(), "{}", output.status);
    let text = |bytes| String::from_utf8(bytes).unwrap_or_else(|error| panic!("{error}"));
    (output.stdout, text(output.stderr))
}

/// The same when these bytes come through a pipe, so many at a time. A program that
/// has seen enough may end before it has read all.
pub fn written_of_pieces(mut child: Child, bytes: &[u8], size: usize) -> (Vec<u8>, String) {
    let mut pipe = child.stdin.take().expect("a pipe");
    scope(|scope| {
        scope.spawn(move || bytes.chunks(size).all(|piece| pipe.write_all(piece).is_ok()));
        written(child)
    })
}

/// A file of the project.
pub fn project(name: &str) -> PathBuf {
    Path::new(env!("CARGO_MANIFEST_DIR")).join("..").join(name)
}

/// What a file of the project says.
pub fn text(name: &str) -> String {
    fs::read_to_string(project(name)).unwrap_or_else(|error| panic!("{name}: {error}"))
}

/// A file of the stored feeds.
pub fn stored_feed(name: &str) -> PathBuf {
    project("harness/feeds").join(name)
}

/// A file of the project's examples.
pub fn example(name: &str) -> PathBuf {
    project("examples").join(name)
}
