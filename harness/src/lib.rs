//! Compares the long-wave library with a program that shares nothing with it.
//!
//! `face` calls the library, `independent` answers from the rules alone, and
//! `compare` demands that both say the same. `changes` and `slips` list what
//! can go wrong on the air, `fields` what can be wrong in a caller's values,
//! `feeds` sends blocks as a transmitter does, `journals` writes journals as
//! customers keep them, `readings` gives readings as the radio board does, `runs` says
//! what is heard of blocks that come undamaged, `stories` tells feeds of which it is
//! known how the time stands, `stored` has fifty feeds that are kept as files, `samples`
//! the files by which the programs for journals are tried, `program` runs a receiver
//! program, and `random` makes tests that can be repeated.

pub mod changes;
pub mod compare;
pub mod face;
pub mod feeds;
pub mod fields;
pub mod independent;
pub mod journals;
pub mod program;
pub mod random;
pub mod readings;
pub mod refusals;
pub mod runs;
pub mod samples;
pub mod slips;
pub mod stored;
pub mod stories;
