//! The receiver program of document 01 by the independent receiver: what this
//! prints, the product's program must print. No line depends on a record, so that
//! any edition will do.

use std::io::{self, Read};

use harness::independent::receiver::History;
use harness::independent::Edition;

fn main() -> io::Result<()> {
    let mut history = History::fresh(Edition::Of1984);
    let mut locked = false;
    for byte in io::stdin().lock().bytes() {
        match byte? {
            bit @ (b'0' | b'1') => history.hear(bit - b'0'),
            b'\n' => {}
            _ => break,
        }
        if history.is_locked() != locked {
            locked = !locked;
            println!("{} {}", if locked { "LOCK" } else { "LOST" }, history.heard());
        }
    }
    let counts = history.counts_since(0);
    println!(
        "END {} {} {} {} {}",
        history.heard(),
        counts.good,
        counts.bad,
        counts.passed,
        counts.waiting
    );
    Ok(())
}
