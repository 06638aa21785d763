//! Changes of a block's fifty places, each as a number whose ones say which
//! places change. Exclusive or with the block's number applies one.

use std::collections::BTreeSet;
use std::iter::successors;

use crate::independent::BLOCK;

/// Every change of exactly `count` places, `count` at least 1.
pub fn of_places(count: u32) -> impl Iterator<Item = u64> {
    // The next larger number with as many ones: the lowest group of ones moves
    // its highest up by one and drops the others to the bottom.
    let next = |&change: &u64| {
        let lowest = change & change.wrapping_neg();
        let moved = change + lowest;
        Some(moved | ((change ^ moved) / lowest) >> 2)
    };
    successors(Some((1 << count) - 1), next).take_while(|change| change >> BLOCK == 0)
}

/// Every change of one, two or three places.
pub fn of_one_to_three_places() -> impl Iterator<Item = u64> {
    (1..=3).flat_map(of_places)
}

/// Every change whose first and last place are `span` places apart, both counted.
pub fn bursts_spanning(span: usize) -> impl Iterator<Item = u64> {
    let ends = 1 | 1u64 << (span - 1);
    let between = 1u64 << span.saturating_sub(2);
    (0..=BLOCK - span)
        .flat_map(move |last| (0..between).map(move |inner| (ends | inner << 1) << last))
}

/// Every change that some `span` successive places hold.
pub fn bursts_within(span: usize) -> impl Iterator<Item = u64> {
    (1..=span).flat_map(bursts_spanning)
}

/// Every change that two groups of two neighbouring places each hold; the
/// groups may touch or overlap.
pub fn within_two_groups() -> impl Iterator<Item = u64> {
    let group = || (0..BLOCK - 1).flat_map(|last| (0..4).map(move |places: u64| places << last));
    // A set, since many pairs of groups hold the same places.
    let changes: BTreeSet<u64> =
        group().flat_map(|one| group().map(move |other| one | other)).collect();
    changes.into_iter().filter(|&change| change != 0)
}
