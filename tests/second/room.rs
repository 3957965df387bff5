//! How small the roundings are (docs/GUARANTEE.md, "How small is small?"): what those of all
//! choices cost together, and what is set aside for them, for each entry of the table of L.

use crate::listed::grouped;
use crate::method::{level, threshold, MARK, SCALE};

/// One choice costs no more than a factor 1 + 1/R.
const R: u64 = 1 << 20;
const MOST: u64 = 256;
const MOST_CAPACITY: u64 = 1_000;

/// An entry of the table, and in logarithms what roundings cost, what the proof takes for
/// that, and what the eighth of L pays.
struct Entry {
    m: u64,
    q: u64,
    cost: f64,
    taken: f64,
    pays: f64,
}

fn entry(m: u64, q: u64) -> Entry {
    let choices = m * threshold(m as usize, q);
    let one = (1.0 / R as f64).ln_1p();
    Entry {
        m,
        q,
        cost: (choices + 1) as f64 * one,
        taken: ((R + 1) as f64 / (R - choices) as f64).ln(),
        pays: level(m as usize, q) as f64 / 8.0 * (1.0 / q as f64).ln_1p(),
    }
}

/// What the page says, of the entry that uses the largest part of what is set aside.
pub fn told() -> Vec<String> {
    let entries: Vec<Entry> = (4..=16).flat_map(|q| (1..=MOST).map(move |m| entry(m, q))).collect();
    let part = |entry: &&Entry| entry.cost / entry.pays;
    let Entry { m, q, cost, taken, pays } =
        entries.iter().max_by(|a, b| part(a).total_cmp(&part(b))).expect("there are entries");
    let (l, t) = (level(*m as usize, *q), threshold(*m as usize, *q));
    let up = |x: f64, places: f64| (x * places).ceil() / places;
    let mut told = vec![
        format!("at m = {m} and q = {q}, the tightest of the {} entries", grouped(entries.len())),
        format!("There L = {l} and T = {}, so", grouped(t)),
        format!("most {m} * {} = {} choices", grouped(t), grouped(m * t)),
        format!("(1 + 1/R)^{}, a factor below {:.3}", grouped(m * t + 1), up(cost.exp(), 1e3)),
        format!("(R + 1) / (R - {}) for it", grouped(m * t)),
        format!("simpler and below {:.3}", up(taken.exp(), 1e3)),
        format!("pays ({}/{q})^({l}/8), more than {:.3}", q + 1, (pays.exp() * 1e3).floor() / 1e3),
        format!("use up {:.2} of its logarithm", up(cost / pays, 1e2)),
    ];
    told.extend(belonging());
    told
}

/// 2^21 * C <= D at the start and after a halving.
fn belonging() -> Vec<String> {
    let (factor, half) = (2 * R, MARK / 2);
    let all = factor * MOST * MOST_CAPACITY;
    assert!(all <= half && factor * MOST_CAPACITY <= SCALE);
    vec![
        format!("with {} times to spare", SCALE / (factor * MOST_CAPACITY)),
        format!(
            "2^21 * {} = {} <= {} = 2^39, with {:.1} % to spare",
            grouped(MOST * MOST_CAPACITY),
            grouped(all),
            grouped(half),
            (half as f64 / all as f64 - 1.0) * 100.0
        ),
        format!(
            "Capacities up to {} would fit, or {} belts",
            grouped(half / factor / MOST),
            half / factor / MOST_CAPACITY
        ),
    ]
}
