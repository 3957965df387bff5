//! The library's calls, on the tables of one call.

use crate::call::{Call, NUMBER};
use crate::library::{site, solve, whole, Lent};

pub fn solve_in(call: &mut Call) {
    let Call { n, q, office, belts, pairs, limits, flow, length, answer, counts } = call;
    solve(*n, *q, *office, Lent { belts, pairs, limits, flow, length, answer, counts });
}

pub fn whole_in(call: &mut Call, totes: &mut [u8]) {
    let Call { n, q, office, belts, pairs, limits, flow, length, answer, counts } = call;
    whole(*n, *q, *office, Lent { belts, pairs, limits, flow, length, answer, counts }, totes);
}

/// A site of this floor alone.
pub fn site_in(call: &mut Call) {
    let Call { n, q, office, belts, pairs, limits, flow, length, answer, counts } = call;
    let parts = [&*belts, &*pairs, &*limits, &*flow, &*length];
    let sizes = parts.map(|part| (part.len() / NUMBER) as u64);
    let item = [*n, *q].into_iter().chain(sizes);
    let mut floors: Vec<u8> = item.flat_map(u64::to_le_bytes).collect();
    let mut answers = [vec![0; NUMBER], answer.clone()].concat();
    let lent = Lent { belts, pairs, limits, flow, length, answer: &mut answers, counts };
    site(*office, &mut floors, lent);
    answer.copy_from_slice(&answers[NUMBER..]);
}
