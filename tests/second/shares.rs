//! How near to the bound the total is promised to be: demand 3, request C-24, and
//! what the proof gives.

/// Shares of the bound as upper and lower number, each the larger than those before it,
/// by their names in the record `Guarantee`.
pub fn shares(q: u64) -> [(&'static str, [u64; 2]); 3] {
    [("near", [q - 2, q]), ("closer", [4 * q - 7, 4 * q]), ("nearer", [8 * q - 9, 8 * q + 5])]
}

/// Whether v is that share of b, or more.
pub fn reaches(v: u128, [upper, lower]: [u64; 2], b: u128) -> bool {
    u128::from(upper) * b <= u128::from(lower) * v
}
