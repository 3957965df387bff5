//! The shapes of floors: which belts a shape has, each once, and where its pairs
//! begin and end.

use crate::random::Random;

/// Tail and head of a belt, or source and sink of a pair.
pub type Ends = (u64, u64);

#[derive(Clone, Copy, Debug, PartialEq)]
pub enum Shape {
    TwoWayGrid,
    OneWayGrid,
    Ladder,
    Layered,
    Chain,
    ChainToHub,
    SideBySide,
    Disjoint,
    Star,
    Dense,
    Sparse,
}

pub const SHAPES: [Shape; 11] = [
    Shape::TwoWayGrid,
    Shape::OneWayGrid,
    Shape::Ladder,
    Shape::Layered,
    Shape::Chain,
    Shape::ChainToHub,
    Shape::SideBySide,
    Shape::Disjoint,
    Shape::Star,
    Shape::Dense,
    Shape::Sparse,
];

#[derive(Clone, Copy)]
pub struct Size {
    pub nodes: u64,
    pub arcs: usize,
    pub commodities: usize,
}

pub const FULL_SIZE: Size = Size { nodes: 64, arcs: 256, commodities: 32 };

fn columns(nodes: u64) -> u64 {
    nodes / rows(nodes)
}

fn rows(nodes: u64) -> u64 {
    nodes.isqrt()
}

pub fn arcs_of(shape: Shape, size: Size, random: &mut Random) -> Vec<Ends> {
    let nodes = size.nodes;
    match shape {
        Shape::TwoWayGrid => both_ways(grid(rows(nodes), columns(nodes))),
        Shape::OneWayGrid => grid(rows(nodes), columns(nodes)),
        Shape::Ladder => both_ways(grid(2, nodes / 2)),
        Shape::Layered => layered(nodes, rows(nodes)),
        Shape::Chain => path(1, nodes),
        Shape::ChainToHub => chain_to_hub(nodes),
        Shape::SideBySide => path(1, nodes.min(3)),
        Shape::Disjoint => disjoint(nodes),
        Shape::Star => both_ways((2..=nodes).map(|node| (node, 1)).collect()),
        Shape::Dense => complete(1, few_nodes(size)),
        Shape::Sparse => (0..size.arcs).map(|_| two_nodes(1, nodes, random)).collect(),
    }
}

fn both_ways(ends: Vec<Ends>) -> Vec<Ends> {
    ends.into_iter().flat_map(|(tail, head)| [(tail, head), (head, tail)]).collect()
}

fn path(first: u64, last: u64) -> Vec<Ends> {
    (first..last).map(|node| (node, node + 1)).collect()
}

/// Rightward and downward, row by row.
fn grid(rows: u64, columns: u64) -> Vec<Ends> {
    let mut ends = Vec::new();
    for node in 1..=rows * columns {
        if node % columns != 0 {
            ends.push((node, node + 1));
        }
        if node + columns <= rows * columns {
            ends.push((node, node + columns));
        }
    }
    ends
}

/// From every node of a layer to every node of the next.
fn layered(nodes: u64, width: u64) -> Vec<Ends> {
    let layer = |node: u64| (node - 1) / width;
    let heads = |tail| (1..=nodes).filter(move |&head| layer(head) == layer(tail) + 1);
    (1..=nodes).flat_map(|tail| heads(tail).map(move |head| (tail, head))).collect()
}

fn hub(nodes: u64) -> u64 {
    nodes / 2 + 1
}

/// A chain into the hub of a star. Its belts stand in the order in which a
/// search from a sink that tries all belts in turn gets one station further each
/// time, and every search has to label it.
fn chain_to_hub(nodes: u64) -> Vec<Ends> {
    let hub = hub(nodes);
    let mut ends = path(1, hub);
    ends.extend(both_ways((hub + 1..=nodes).map(|spoke| (spoke, hub)).collect()));
    ends
}

/// Islands of four stations (the last may have up to seven).
fn disjoint(nodes: u64) -> Vec<Ends> {
    (0..islands(nodes)).flat_map(|i| complete(island(nodes, i).0, island(nodes, i).1)).collect()
}

fn islands(nodes: u64) -> u64 {
    (nodes / 4).max(1)
}

fn island(nodes: u64, i: u64) -> (u64, u64) {
    let last = if i + 1 == islands(nodes) { nodes } else { 4 * i + 4 };
    (4 * i + 1, last)
}

fn complete(first: u64, last: u64) -> Vec<Ends> {
    let heads = |tail| (first..=last).filter(move |&head| head != tail);
    (first..=last).flat_map(|tail| heads(tail).map(move |head| (tail, head))).collect()
}

/// The fewest nodes on which all arcs can differ.
fn few_nodes(size: Size) -> u64 {
    let enough = |nodes: &u64| nodes * (nodes - 1) >= size.arcs as u64;
    (2..size.nodes).find(enough).unwrap_or(size.nodes)
}

pub fn two_nodes(first: u64, last: u64, random: &mut Random) -> Ends {
    let tail = random.between(first, last);
    let head = random.between(first, last - 1);
    (tail, if head >= tail { head + 1 } else { head })
}

/// Docks where the shape begins, packers where it ends; none if they fall together.
pub fn terminals(shape: Shape, size: Size, random: &mut Random) -> Option<Ends> {
    let nodes = size.nodes;
    let (rows, columns, hub) = (rows(nodes), columns(nodes), hub(nodes));
    let (source, sink) = match shape {
        Shape::TwoWayGrid | Shape::OneWayGrid => {
            (random.between(0, rows - 1) * columns + 1, random.between(1, rows) * columns)
        }
        Shape::Ladder => {
            (random.between(0, 1) * (nodes / 2) + 1, random.between(1, 2) * (nodes / 2))
        }
        Shape::Layered => (random.between(1, rows), nodes - random.between(0, rows - 1)),
        Shape::Chain => forward(nodes, random),
        Shape::ChainToHub => {
            let dock = if random.one_in(4) { 1 } else { random.between(hub, nodes) };
            (dock, random.between(hub, nodes))
        }
        Shape::SideBySide => forward(nodes.min(3), random),
        Shape::Disjoint => {
            let (first, last) = island(nodes, random.between(0, islands(nodes) - 1));
            two_nodes(first, last, random)
        }
        Shape::Dense => two_nodes(1, few_nodes(size), random),
        Shape::Star | Shape::Sparse => two_nodes(1, nodes, random),
    };
    (source != sink).then_some((source, sink))
}

fn forward(nodes: u64, random: &mut Random) -> Ends {
    let (a, b) = two_nodes(1, nodes, random);
    (a.min(b), a.max(b))
}
