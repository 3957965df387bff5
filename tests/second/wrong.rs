//! Programs that take reversible belts (request C-12) or limited stations (C-17)
//! wrongly. Each has to answer otherwise on some compared floor: else these show
//! nothing about it.

use crate::literal;
use crate::method::fullest;
use crate::network::{Arc, Network, Solution};
use crate::programs::{all, Drawn, Program, RIGHT};

pub const REVERSIBLE: &[Program] = &[
    Program { name: "one way only", read: |arc| Arc { mark: 0, ..*arc }, ..RIGHT },
    Program { name: "mark as capacity", read: swapped, ..RIGHT },
    Program { name: "sign kept", amount: |drawn| (drawn.ahead + drawn.back) as i64, ..RIGHT },
    Program { name: "load net of each pair", load: net_of_each, ..RIGHT },
    Program { name: "load net of all pairs", load: net_of_all, ..RIGHT },
    Program { name: "load of one direction", load: one_direction, ..RIGHT },
    Program { name: "marked belts twice in m", in_threshold: both_directions, ..RIGHT },
];

pub const LIMITED: &[Program] = &[
    Program {
        name: "source not counted",
        seen: |pair, node| node != pair.source,
        used: |pair, node| node != pair.source,
        ..RIGHT
    },
    Program {
        name: "sink not counted",
        seen: |pair, node| node != pair.sink,
        used: |pair, node| node != pair.sink,
        ..RIGHT
    },
    Program { name: "stations left out of alpha", seen: |_, _| false, ..RIGHT },
    Program { name: "out of D", in_weight: belts, ..RIGHT },
    Program { name: "out of whether to halve", in_mark: belts, ..RIGHT },
    Program { name: "out of the halving", in_halving: belts, ..RIGHT },
    Program { name: "out of the draw", in_draw: belts, ..RIGHT },
    Program { name: "out of when choosing ends", in_end: belts, ..RIGHT },
    Program { name: "out of T", in_threshold: belts, ..RIGHT },
    Program { name: "a station before a belt as full", fullest: stations_first, ..RIGHT },
    Program { name: "station load from net amounts", node_load: |_, taken| taken, ..RIGHT },
    Program { name: "a station as a belt among equals", choose: literal::nodes_as_arcs, ..RIGHT },
];

fn swapped(arc: &Arc) -> Arc {
    Arc { capacity: arc.mark, mark: arc.capacity, ..*arc }
}

fn both_directions(net: &Network) -> usize {
    all(net) + net.arcs.iter().filter(|arc| arc.reversible()).count()
}

fn net_of_each(drawn: &[Drawn]) -> u64 {
    drawn.iter().map(|drawn| drawn.ahead.abs_diff(drawn.back)).sum()
}

fn net_of_all(drawn: &[Drawn]) -> u64 {
    drawn.iter().map(|drawn| drawn.signed()).sum::<i64>().unsigned_abs()
}

fn one_direction(drawn: &[Drawn]) -> u64 {
    let ahead = drawn.iter().map(|drawn| drawn.ahead).sum::<u64>();
    ahead.max(drawn.iter().map(|drawn| drawn.back).sum())
}

fn belts(net: &Network) -> usize {
    net.arcs.len()
}

fn stations_first(net: &Network, loads: &[u64]) -> usize {
    let (m, capacities) = (net.arcs.len(), net.capacities());
    let order: Vec<usize> = (m..loads.len()).chain(0..m).collect();
    let turned = |of: &[u64]| order.iter().map(|r| of[*r]).collect::<Vec<u64>>();
    order[fullest(&turned(&capacities), &turned(loads))]
}

/// Of how many floors, and how many of them each wrong program answers otherwise.
pub struct Told {
    programs: &'static [Program],
    floors: u64,
    otherwise: Vec<u64>,
}

impl Told {
    pub fn new(programs: &'static [Program]) -> Told {
        Told { programs, floors: 0, otherwise: vec![0; programs.len()] }
    }

    /// False where the right program is another than that of the solution: it is one
    /// more form of the second solver.
    pub fn look(&mut self, net: &Network, q: u64, solution: &Solution) -> bool {
        self.floors += 1;
        for (program, seen) in self.programs.iter().zip(&mut self.otherwise) {
            *seen += u64::from(program.differs(net, q, solution));
        }
        !RIGHT.differs(net, q, solution)
    }

    /// Whether every wrong program was told by some floor.
    pub fn show(&self) -> bool {
        let seen = self.programs.iter().zip(&self.otherwise);
        let each: Vec<String> = seen.map(|(wrong, n)| format!("{n} by {}", wrong.name)).collect();
        println!("of {} floors other answers: {}", self.floors, each.join(", "));
        self.otherwise.iter().all(|seen| *seen > 0)
    }
}
