//! The files by which the two programs for journals are tried: a feed, the journal
//! that is logged of it, and the report of that journal. The product has no part in
//! them.

use crate::face::Report;
use crate::feeds::{bits_of_all, empty_filler};
use crate::independent::journal::{add, lines, logged};
use crate::independent::{bits_in, bits_of, block, Edition, BLOCK, PREFIX};
use crate::stored::in_lines;

const EDITION: Edition = Edition::Of1984;

/// The files by their names in the project, and what is in them.
pub fn samples() -> [(&'static str, Vec<u8>); 4] {
    let text = feed();
    let journal = logged(&bits_in(&text));
    let report = add(EDITION.number(), &Report::FRESH, &journal).expect("a sound journal");
    [
        ("crates/log_blocks/stdin", text),
        ("crates/log_blocks/stdout", journal.clone()),
        ("crates/report/stdin", journal),
        ("crates/report/stdout", lines(&report).into_bytes()),
    ]
}

/// Lines of a block's length. What comes behind another character is no longer input.
fn feed() -> Vec<u8> {
    let filler = empty_filler(EDITION);
    // 1 January 1986, 12:34.
    let time = block(0, 0x4C16_C882);
    let mut bits = vec![0; 7];
    // Lock, then blocks of all kinds, three of them bad.
    bits.extend(bits_of_all(&[filler, block(1, 0x8500_0000), filler]));
    bits.extend(bits_of_all(&[time, filler ^ 1 << 20, block(7, 0), filler ^ PREFIX]));
    bits.extend(bits_of_all(&[block(10, u32::MAX), filler, time ^ 0x155 << 13, filler]));
    // A bit is lost, and with it the lock.
    let mut late = bits_of(filler).repeat(4);
    late.remove(20);
    bits.extend(late);
    // It comes again, behind a block whose first bit is used up.
    bits.extend(bits_of_all(&[filler, block(15, 0x1234_5678), filler, block(12, 1)]));
    // It breaks off within a block.
    bits.extend(&bits_of(filler)[..33]);
    let behind = in_lines(&bits_of(filler), BLOCK);
    [&in_lines(&bits, BLOCK)[..], b"end\n", &behind].concat()
}
