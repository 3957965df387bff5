//! The floors on which the slips show (docs/GUARANTEE.md, "What the slips break"), as small
//! as a search found them.

use crate::network::{network, Network};

pub fn one_belt(capacity: u64) -> Network {
    network(2, &[(1, 2, capacity)], &[(1, 2)])
}

pub fn two_belts() -> Network {
    network(2, &[(1, 2, 4), (1, 2, 5)], &[(1, 2)])
}

pub fn merge() -> Network {
    network(3, &[(1, 2, 1), (1, 2, 2), (2, 3, 2)], &[(1, 3)])
}

pub fn two_feeders() -> Network {
    network(3, &beside(&[(1, 2, 3), (1, 2, 1000)], 5, 48), &[(1, 3)])
}

pub fn one_feeder() -> Network {
    network(3, &beside(&[(1, 2, 33)], 7, 165), &[(1, 3), (2, 3)])
}

/// The feeders, and after them belts of one capacity side by side.
fn beside(feeders: &[(u64, u64, u64)], belts: usize, capacity: u64) -> Vec<(u64, u64, u64)> {
    let lines = vec![(2, 3, capacity); belts];
    feeders.iter().copied().chain(lines).collect()
}
