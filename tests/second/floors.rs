//! Floors of many shapes, small and full-size, from a seed, and calls on them.

use crate::call::{put, Call, BELT, FULL, NUMBER, OFFICES, PAIR};
use crate::network::{network, Arc, Commodity, Network};
use crate::random::Random;
use crate::shapes::{arcs_of, terminals, two_nodes, Ends, Shape, Size, SHAPES};
use std::ops::RangeInclusive;

/// `Few` draws from four small numbers, so that many paths are equally long.
#[derive(Clone, Copy, Debug, PartialEq)]
pub enum Capacities {
    Ones,
    Same,
    Few,
    Mixed,
}

pub const CAPACITIES: [Capacities; 4] =
    [Capacities::Mixed, Capacities::Same, Capacities::Few, Capacities::Ones];

pub const PRECISIONS: RangeInclusive<u64> = 4..=16;

pub fn floor(shape: Shape, size: Size, capacities: Capacities, random: &mut Random) -> Network {
    let ends = fitted(arcs_of(shape, size, random), size.arcs, random);
    let same = random.between(1, 1000);
    let capacity = |random: &mut Random| match capacities {
        Capacities::Ones => 1,
        Capacities::Same => same,
        Capacities::Few => random.pick(&[1, 2, 3, 5]),
        Capacities::Mixed => random.between(1, 1000),
    };
    let arc = |(tail, head)| Arc::one_way(tail, head, capacity(random));
    let arcs = ends.into_iter().map(arc).collect();
    let commodities = (0..size.commodities).map(|_| commodity(shape, size, random)).collect();
    Network { arcs, commodities, ..network(size.nodes, &[], &[]) }
}

/// A small floor of any shape; one in twelve is unjoined by intent.
pub fn small(random: &mut Random) -> Network {
    let size = Size {
        nodes: random.between(2, 8),
        arcs: random.between(1, 14) as usize,
        commodities: random.between(1, 5) as usize,
    };
    any(size, random)
}

/// A floor of any shape and of a size between small and full.
pub fn medium(random: &mut Random) -> Network {
    let size = Size {
        nodes: random.between(9, 64),
        arcs: random.between(15, 256) as usize,
        commodities: random.between(1, 32) as usize,
    };
    any(size, random)
}

fn any(size: Size, random: &mut Random) -> Network {
    let (shape, capacities) = (random.pick(&SHAPES), random.pick(&CAPACITIES));
    if size.nodes > 2 && random.one_in(12) {
        return unjoined(shape, size, capacities, random);
    }
    let mut net = floor(shape, size, capacities, random);
    if random.one_in(2) {
        random.shuffle(&mut net.arcs);
    }
    net
}

/// Every pair names a station that no belt touches.
pub fn unjoined(shape: Shape, size: Size, capacities: Capacities, random: &mut Random) -> Network {
    let connected = Size { nodes: size.nodes - 1, ..size };
    let mut net = floor(shape, connected, capacities, random);
    net.nodes = size.nodes;
    for commodity in &mut net.commodities {
        match random.one_in(2) {
            true => commodity.source = size.nodes,
            false => commodity.sink = size.nodes,
        }
    }
    net
}

/// Of m belts only the last joins the pair.
pub fn one_joining(m: u64, capacity: u64) -> Network {
    let apart = |_| Arc::one_way(2, 1, 1);
    let mut arcs: Vec<Arc> = (1..m).map(apart).collect();
    arcs.push(Arc::one_way(1, 2, capacity));
    Network { arcs, ..network(2, &[], &[(1, 2)]) }
}

/// The call on a floor, with tables that hold strange bytes and are longer than
/// needed, incomplete last items, and a count of the office that passes. The other
/// offices' are strange bytes, of which half would not pass.
pub fn lent(net: &Network, q: u64, random: &mut Random) -> Call {
    let mut call = Call::new(net, q);
    for (slice, room) in [(&mut call.belts, BELT), (&mut call.pairs, PAIR)] {
        let more = random.index(room);
        slice.extend(random.bytes(more));
    }
    lengthen(&mut call.limits, net.nodes, random);
    let tables = [&mut call.flow, &mut call.length, &mut call.answer, &mut call.counts];
    for table in tables {
        let more = random.pick(&[0, 0, 1, 7, 8, 9, 40]);
        *table = random.bytes(table.len() + more);
    }
    call.office = random.between(1, OFFICES as u64);
    let (own, count) = (call.own(), random.pick(&[0, 1, 255, FULL - 1, FULL]));
    put(&mut call.counts, own, count);
    call
}

/// By what changes nothing: zeros where there was no number, numbers for which there is
/// no station, and part of one.
fn lengthen(limits: &mut Vec<u8>, nodes: u64, random: &mut Random) {
    let whole = nodes as usize * NUMBER;
    if random.one_in(2) {
        limits.resize(whole, 0);
    }
    let beyond = if limits.len() == whole { random.index(4) } else { 0 };
    let more = beyond * NUMBER + random.index(NUMBER);
    limits.extend(random.bytes(more));
}

/// Exactly as many arcs as asked: some left out, or some run side by side.
/// Copies stand beside each other, so that the shape's order is kept.
fn fitted(ends: Vec<Ends>, arcs: usize, random: &mut Random) -> Vec<Ends> {
    let mut chosen: Vec<usize> = (0..ends.len()).collect();
    random.shuffle(&mut chosen);
    chosen.truncate(arcs);
    while chosen.len() < arcs {
        chosen.push(random.index(ends.len()));
    }
    chosen.sort_unstable();
    chosen.into_iter().map(|at| ends[at]).collect()
}

/// The shape's own terminals; now and then any two nodes.
fn commodity(shape: Shape, size: Size, random: &mut Random) -> Commodity {
    let terminals = if random.one_in(8) { None } else { terminals(shape, size, random) };
    let (source, sink) = terminals.unwrap_or_else(|| two_nodes(1, size.nodes, random));
    Commodity { source, sink }
}
