//! Tracks (side columns): where the bundles of one channel run (7).

use crate::bundles::Bundle;
use std::collections::BTreeSet;

/// Gives each bundle of one channel its track and tells how many are used.
///
/// By first row and then by number, each takes the lowest track that no bundle sharing a row with
/// it has.
pub fn assign(bundles: &mut [Bundle]) -> usize {
    let mut order: Vec<usize> = (0..bundles.len()).collect();
    order.sort_by_key(|&number| (bundles[number].first_row, number));
    let mut placed: Vec<Bundle> = Vec::new();
    for number in order {
        let bundle = &mut bundles[number];
        let taken: BTreeSet<usize> = placed
            .iter()
            .filter(|other| share_a_row(other, bundle))
            .map(|other| other.track)
            .collect();
        bundle.track = (0..).find(|track| !taken.contains(track)).unwrap_or(0);
        placed.push(*bundle);
    }
    let used: BTreeSet<usize> = placed.iter().map(|bundle| bundle.track).collect();
    used.len()
}

/// Whether both bundles cover some row; their first and last rows are covered too.
pub fn share_a_row(one: &Bundle, other: &Bundle) -> bool {
    one.first_row <= other.last_row && other.first_row <= one.last_row
}
