//! Floors with many routes that are equally long and have different numbers of
//! belts: capacities divide 2^36, so that no starting length is rounded.

use crate::network::{network, Network};
use crate::random::Random;
use crate::shapes::two_nodes;

/// Each with its name and its precision. By the first two another rule gives
/// another answer: they are as small as a search found them.
pub fn stated() -> Vec<(&'static str, Network, u64)> {
    let straight = network(4, &[(1, 2, 4), (2, 3, 4), (1, 3, 2), (3, 4, 4)], &[(1, 4)]);
    let lower_pair = network(4, &[(3, 1, 2), (4, 3, 1), (1, 2, 2), (2, 4, 2)], &[(3, 4), (2, 3)]);
    let in_turn = network(
        6,
        &[(1, 2, 4), (2, 3, 4), (3, 4, 4), (4, 5, 4), (1, 6, 2), (6, 5, 2), (1, 5, 1)],
        &[(1, 5)],
    );
    let apart = network(5, &[(1, 2, 2), (2, 3, 2), (4, 5, 1)], &[(1, 3), (4, 5)]);
    vec![
        ("two belts or one, and one for both", straight, 4),
        ("three belts of the lower pair, two of the higher", lower_pair, 4),
        ("four belts, two or one", in_turn, 16),
        ("two belts of the lower pair, one of the higher", apart, 16),
    ]
}

pub fn at_random(random: &mut Random) -> Network {
    let mut net = match random.between(0, 2) {
        0 => side_by_side(random),
        1 => crossed_grid(random),
        _ => tangle(random),
    };
    if random.one_in(2) {
        random.shuffle(&mut net.arcs);
    }
    net
}

/// 1, 2, 4 up to the most.
fn power(most: u64, random: &mut Random) -> u64 {
    1 << random.between(0, u64::from(most.ilog2()))
}

/// Lines side by side from station 1 to 2, of 1, 2 or 4 belts, all equally long at
/// first, and a second pair with a belt of its own that is as long.
fn side_by_side(random: &mut Random) -> Network {
    let capacity = power(128, random);
    let (mut nodes, mut belts) = (2, Vec::new());
    for _ in 0..random.between(2, 4) {
        let number = power(4, random);
        let mut tail = 1;
        for _ in 1..number {
            nodes += 1;
            belts.push((tail, nodes, number * capacity));
            tail = nodes;
        }
        belts.push((tail, 2, number * capacity));
    }
    belts.push((nodes + 1, nodes + 2, capacity));
    let mut net = network(nodes + 2, &belts, &[(1, 2), (nodes + 1, nodes + 2)]);
    if random.one_in(2) {
        net.commodities.reverse();
    }
    net
}

/// A grid of equal capacities whose squares have a diagonal of half as much: it is
/// as long as two sides.
fn crossed_grid(random: &mut Random) -> Network {
    let (rows, columns) = random.pick(&[(2, 3), (2, 4), (3, 3)]);
    let (last, capacity) = (rows * columns, 2 * power(256, random));
    let mut belts = Vec::new();
    for node in 1..=last {
        let (right, down) = (node % columns != 0, node + columns <= last);
        let ways = [(right, 1, 1), (down, columns, 1), (right && down, columns + 1, 2)];
        for (_, further, part) in ways.into_iter().filter(|(leads, _, _)| *leads) {
            belts.push((node, node + further, capacity / part));
        }
    }
    let pairs: Vec<(u64, u64)> = (0..random.between(1, 3))
        .map(|_| two_nodes(1, last, random))
        .map(|(a, b)| (a.min(b), a.max(b)))
        .collect();
    network(last, &belts, &pairs)
}

/// Any belts of such capacities between a few stations, and any pairs.
fn tangle(random: &mut Random) -> Network {
    let nodes = random.between(6, 8);
    let most = random.pick(&[2, 4]);
    let belt = |random: &mut Random| {
        let (tail, head) = two_nodes(1, nodes, random);
        (tail, head, power(most, random))
    };
    let belts: Vec<_> = (0..random.between(10, 18)).map(|_| belt(random)).collect();
    let pairs: Vec<_> = (0..random.between(2, 5)).map(|_| two_nodes(1, nodes, random)).collect();
    network(nodes, &belts, &pairs)
}
