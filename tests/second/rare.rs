//! Floors on which a rule decides that floors at random hardly ever meet.

use crate::network::{network, Network};

/// Each with its name and its precision.
pub fn floors() -> Vec<(&'static str, Network, u64)> {
    let mut floors = equally_full();
    floors.push(("a length of exactly 2^40", exactly_marked(), 15));
    floors
}

/// Two belts of unequal capacity are equally full when choosing ends, and the
/// lower-numbered one gives the scale. A search among small floors found these.
fn equally_full() -> Vec<(&'static str, Network, u64)> {
    let first = network(
        4,
        &[(3, 1, 5), (1, 2, 4), (4, 1, 3), (1, 4, 4)],
        &[(3, 4), (2, 3), (3, 2), (4, 2)],
    );
    let second = network(
        4,
        &[(2, 3, 2), (4, 1, 2), (1, 3, 3), (3, 2, 3), (2, 4, 2)],
        &[(2, 1), (3, 4), (4, 2), (3, 4)],
    );
    let third = network(
        5,
        &[(5, 1, 2), (4, 3, 6), (1, 2, 4), (3, 5, 1), (5, 1, 5), (1, 3, 3)],
        &[(5, 2), (5, 3)],
    );
    vec![
        ("belts 1 and 4 equally full", first, 4),
        ("belts 4 and 5 equally full", second, 6),
        ("belts 3 and 5 equally full", third, 8),
    ]
}

/// A belt of capacity 128 at q = 15, fed through twelve ways of about the same
/// length that are drawn over in turn. Draws of 105, 80 and 128 take its length
/// times 135/128, 25/24 and 16/15; three, two and seven of them double it and
/// round nothing, so that it goes from 2^29 to the mark itself in eleven rounds.
/// The pair beside it keeps the last bits in which a late halving would show.
fn exactly_marked() -> Network {
    let ways = [(105, 196); 3].into_iter().chain([(80, 465); 2]).chain([(136, 137); 7]);
    let mut belts = vec![(14, 15, 128)];
    for (station, (into, out_of)) in (2..).zip(ways) {
        belts.push((1, station, into));
        belts.push((station, 14, out_of));
    }
    belts.push((16, 17, 18));
    network(17, &belts, &[(1, 15), (16, 17)])
}

/// Two resources of unequal capacity, from 0, that are equally full when choosing ends:
/// the first gives the scale (request C-17).
pub struct Tied {
    pub name: &'static str,
    pub net: Network,
    pub q: u64,
    pub first: usize,
    pub second: usize,
}

/// A belt and a station, then two stations; a search found these too.
pub fn with_stations() -> Vec<Tied> {
    let one = [(2, 3, 2), (2, 1, 2), (3, 1, 1), (3, 4, 1), (3, 1, 1)];
    let two = [(2, 3, 2), (2, 1, 2), (3, 2, 2), (1, 3, 4), (1, 2, 2)];
    let three = [(1, 4, 3), (3, 4, 2), (1, 4, 2), (2, 4, 1), (4, 3, 1), (1, 2, 1)];
    let four = [(4, 2, 8), (3, 4, 6), (3, 2, 5), (3, 4, 5), (4, 1, 11), (2, 1, 7)];
    let five = [(4, 3, 15), (4, 1, 17), (3, 2, 6), (2, 4, 7), (3, 1, 16), (2, 3, 12)];
    let one = network(4, &one, &[(2, 1), (2, 4)]).limited(&[3, 0, 4, 1]);
    let two = network(3, &two, &[(1, 2), (2, 3)]).limited(&[5, 0, 5]).reversible(&[4]);
    let three = network(4, &three, &[(2, 3), (1, 4)]).limited(&[5, 0, 1]).reversible(&[6]);
    let four = network(4, &four, &[(3, 1), (4, 2)]).limited(&[3, 3, 2, 2]).reversible(&[6]);
    let five = network(4, &five, &[(4, 2), (2, 1)]).limited(&[4, 6, 2, 3]).reversible(&[2]);
    let tied = |name, net, q, first, second| Tied { name, net, q, first, second };
    vec![
        tied("belt 2 and station 1 equally full", one, 4, 1, 5),
        tied("belt 5 and station 1 equally full", two, 4, 4, 5),
        tied("belt 1 and station 1 equally full", three, 6, 0, 6),
        tied("stations 2 and 4 equally full", four, 6, 7, 9),
        tied("stations 1 and 4 equally full", five, 7, 6, 9),
    ]
}
