//! How near plans come (docs/GUARANTEE.md, "How near"): V / B on the full-size floors of the
//! benchmark, where it is least, by the fast form.

use crate::fast;
use crate::full::{floors_at, Kind, PRECISIONS};
use std::sync::atomic::{AtomicUsize, Ordering};
use std::thread;

const KINDS: [(&str, Kind); 3] = [
    ("belts one way, no limits", Kind { marked: false, limited: false }),
    ("every belt reversible", Kind { marked: true, limited: false }),
    ("every station limited", Kind { marked: false, limited: true }),
];

/// The first is the table's; of the others the least together is told.
const SEEDS: [u64; 5] = [1, 2, 3, 4, 5];

/// Eleven floors: the precision's place, the seed's and the kind's.
type Group = [usize; 3];

pub fn told() -> Vec<String> {
    let shares = shares();
    let least = |q, seeds: &[usize], kinds: &[usize]| {
        let among = |[a, b, c]: Group| a == q && seeds.contains(&b) && kinds.contains(&c);
        let least = shares.iter().filter(|(group, _)| among(*group)).map(|(_, share)| share).min();
        format!("0.{:04}", least.expect("there are such floors"))
    };
    let row = |kind: usize| {
        let [a, b, c] = [0, 1, 2].map(|q| least(q, &[0], &[kind]));
        format!("| {} | {a} | {b} | {c} |", KINDS[kind].0)
    };
    let [a, b, c] = [0, 1, 2].map(|q| least(q, &[1, 2, 3, 4], &[0, 1, 2]));
    let [_, first, .., last] = SEEDS;
    let others = format!("(`--seed {first}` to `--seed {last}`) the least were {a}, {b} and {c}");
    [0, 1, 2].map(row).into_iter().chain([others]).collect()
}

/// Of every group the least share. As many threads as there are processors take one group
/// after another, those of the greatest precision first, since these take longest.
fn shares() -> Vec<(Group, u128)> {
    let places = |of: usize| 0..of;
    let groups: Vec<Group> = places(PRECISIONS.len())
        .rev()
        .flat_map(|q| places(SEEDS.len()).map(move |seed| (q, seed)))
        .flat_map(|(q, seed)| places(KINDS.len()).map(move |kind| [q, seed, kind]))
        .collect();
    let next = AtomicUsize::new(0);
    let work = || {
        let taken = std::iter::from_fn(|| groups.get(next.fetch_add(1, Ordering::Relaxed)));
        taken.map(|group| (*group, least(*group))).collect::<Vec<_>>()
    };
    let threads = thread::available_parallelism().map_or(1, usize::from);
    thread::scope(|scope| {
        let running: Vec<_> = (0..threads).map(|_| scope.spawn(work)).collect();
        running
            .into_iter()
            .flat_map(|thread| thread.join().expect("each floor is solved"))
            .collect()
    })
}

fn least([q, seed, kind]: Group) -> u128 {
    let q = PRECISIONS[q];
    let floors = floors_at(q, SEEDS[seed], KINDS[kind].1).into_iter();
    floors.map(|(_, call)| share(fast::solve(&call.network(), q).answer)).min().expect("eleven")
}

/// V over B, cut after the fourth place.
fn share([drawn, capacity, load, weight, alpha, ..]: [u64; 7]) -> u128 {
    let wide = u128::from;
    10_000 * wide(drawn * capacity) * wide(alpha) / (wide(load) * wide(weight))
}
