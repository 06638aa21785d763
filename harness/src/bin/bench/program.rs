//! Bits per second through a receiver program that reads a file: the product's,
//! if `RECEIVE_BIN` names it, and one by hand, which does what `circuit` does.

use std::io::{self, Read};
use std::path::{Path, PathBuf};
use std::process::Command;
use std::time::{Duration, Instant};
use std::{env, fs, process};

use harness::face::{Counts, PackedState};
use harness::program::{output, product};

use crate::circuit::Circuit;
use crate::contest::{best_times, show};
use crate::receiver::{clean_feed, random_bits, EDITION};

/// The argument that turns this program into the receiver by hand.
pub const BY_HAND: &str = "receive";

const NAMES: [&str; 2] = ["product", "circuit"];

const BITS: usize = 10_000_000;
const ROUNDS: usize = 40;

/// How much is read at once.
const PIECE: usize = 1 << 16;

pub fn measure() {
    let Some(product) = product() else {
        println!("program: RECEIVE_BIN is not set, so the product's program was NOT measured");
        return;
    };
    println!("program: {BITS} bits from a file, best of {ROUNDS} rounds");
    let this = env::current_exe().expect("the name of this program").into_os_string();
    for (what, bits) in
        [("program, hunting", random_bits(BITS)), ("program, locked", clean_feed(BITS))]
    {
        let file = Input::holding(bits);
        let commands: [&dyn Fn() -> Command; 2] = [&|| Command::new(&product), &|| {
            let mut command = Command::new(&this);
            command.arg(BY_HAND);
            command
        }];
        let best = best_times(ROUNDS, NAMES, commands, |command| run(command(), &file.0));
        show(what, NAMES, best, BITS, "bits");
    }
}

/// A file of bits as characters, which goes when it is no longer needed.
struct Input(PathBuf);

impl Input {
    fn holding(mut bits: Vec<u8>) -> Self {
        let path = env::temp_dir().join(format!("longwave-bench-{}.txt", process::id()));
        bits.iter_mut().for_each(|bit| *bit += b'0');
        fs::write(&path, bits).unwrap_or_else(|error| panic!("{}: {error}", path.display()));
        Input(path)
    }
}

impl Drop for Input {
    fn drop(&mut self) {
        // A file left behind harms nothing.
        let _ = fs::remove_file(&self.0);
    }
}

fn run(mut command: Command, input: &Path) -> (Duration, String) {
    let start = Instant::now();
    let printed = output(&mut command, input);
    (start.elapsed(), printed)
}

// By value: what is printed by reference would not stay in a register.

fn tell(locked: bool, fed: u64) {
    println!("{} {fed}", if locked { "LOCK" } else { "LOST" });
}

fn tell_end(fed: u64, counts: Counts, waiting: u8) {
    println!("END {fed} {} {} {} {waiting}", counts.good, counts.bad, counts.passed);
}

/// The receiver program by hand.
pub fn receive() -> io::Result<()> {
    let mut circuit = Circuit::of(EDITION, &PackedState::default());
    let mut counts = Counts::default();
    let mut fed = 0;
    let mut locked = false;
    let mut piece = vec![0; PIECE];
    let mut input = io::stdin().lock();
    'input: loop {
        let len = input.read(&mut piece)?;
        if len == 0 {
            break;
        }
        for &byte in &piece[..len] {
            let bit = byte.wrapping_sub(b'0');
            if bit > 1 {
                match byte {
                    b'\n' => continue,
                    _ => break 'input,
                }
            }
            fed += 1;
            // Lock comes and goes with a block alone.
            if circuit.step(bit, &mut counts) && circuit.is_locked() != locked {
                locked = !locked;
                tell(locked, fed);
            }
        }
    }
    tell_end(fed, counts, circuit.state().waiting);
    Ok(())
}
