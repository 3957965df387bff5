//! The arithmetic of document 01, "One choice of route", over the resources of request
//! C-17, given by their capacities: what all forms of the second solver compute alike.

use std::cmp::Ordering;

pub const SCALE: u64 = 1 << 36;
pub const MARK: u64 = 1 << 40;

/// The least D over alpha of the choices so far: which choice, from 1, gave it and
/// by which lengths.
pub struct Bound {
    pub weight: u64,
    pub alpha: u64,
    pub iteration: u64,
    pub lengths: Vec<u64>,
}

/// Powers of 17 up to 17^92 and their multiples by 256 stay below 2^512.
type Wide = [u32; 16];

fn times(number: &Wide, by: u64) -> Wide {
    let mut carry = 0;
    number.map(|limb| {
        let sum = u64::from(limb) * by + carry;
        carry = sum >> 32;
        sum as u32
    })
}

fn below(a: &Wide, b: &Wide) -> bool {
    a.iter().rev().cmp(b.iter().rev()) == Ordering::Less
}

/// L: the least whole number, at least 1, with (1 + 1/q)^L >= m.
pub fn level(m: usize, q: u64) -> u64 {
    let mut one: Wide = [0; 16];
    one[0] = 1;
    let mut upper = times(&one, q + 1);
    let mut lower = times(&times(&one, m as u64), q);
    let mut level = 1;
    while below(&upper, &lower) {
        upper = times(&upper, q + 1);
        lower = times(&lower, q);
        level += 1;
    }
    level
}

/// T, the load mark of m resources.
pub fn threshold(m: usize, q: u64) -> u64 {
    q * level(m, q)
}

pub fn start(capacities: &[u64]) -> Vec<u64> {
    capacities.iter().map(|capacity| SCALE.div_ceil(*capacity)).collect()
}

pub fn grown(length: u64, capacity: u64, draw: u64, q: u64) -> u64 {
    length + (length * draw).div_ceil(q * capacity)
}

pub fn halved(length: u64) -> u64 {
    length.div_ceil(2)
}

/// D: the sum over all resources of capacity times length.
pub fn weight(capacities: &[u64], lengths: &[u64]) -> u64 {
    capacities.iter().zip(lengths).map(|(capacity, length)| capacity * length).sum()
}

/// Whether a / b is below c / d, exactly.
pub fn fraction_below(a: u64, b: u64, c: u64, d: u64) -> bool {
    u128::from(a) * u128::from(d) < u128::from(c) * u128::from(b)
}

/// b: the lowest-numbered resource of greatest load over capacity.
pub fn fullest(capacities: &[u64], loads: &[u64]) -> usize {
    let mut best = 0;
    for (r, capacity) in capacities.iter().enumerate() {
        if fraction_below(loads[best], capacities[best], loads[r], *capacity) {
            best = r;
        }
    }
    best
}
