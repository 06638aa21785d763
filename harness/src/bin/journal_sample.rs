//! Writes the files by which the two programs for journals are tried into their
//! crates.

use std::{fs, io};

use harness::program::project;
use harness::samples::samples;

fn main() -> io::Result<()> {
    for (name, bytes) in samples() {
        fs::write(project(name), bytes)?;
    }
    Ok(())
}
