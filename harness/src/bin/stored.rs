//! Writes the fifty stored feeds and their list into a folder, by default that of
//! the harness.

use std::path::PathBuf;
use std::{env, fs, io};

use harness::program::stored_feed;
use harness::stored::{all, file, list, LIST};

fn main() -> io::Result<()> {
    let folder = env::args().nth(1).map_or_else(|| stored_feed(""), PathBuf::from);
    fs::create_dir_all(&folder)?;
    let all = all();
    for (number, stored) in (1..).zip(&all) {
        fs::write(folder.join(file(number)), &stored.text)?;
    }
    fs::write(folder.join(LIST), list(&all))
}
