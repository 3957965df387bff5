//! The floors of examples/ and their listings, with the figures of a row as pages write them.

use crate::network::{Network, Solution};
use crate::rounded::Fraction;
use crate::{dimacs, solver};
use std::collections::VecDeque;

/// The program's only precision.
const PRECISION: u64 = 4;

pub struct Listed {
    pub net: Network,
    pub solution: Solution,
}

pub fn listed(name: &str) -> Listed {
    let file = std::fs::read(format!("examples/{name}.max")).expect("the example can be read");
    let net = dimacs::read(&file).ok().expect("the example is a floor");
    let solution = solver::solve(&net, PRECISION);
    Listed { net, solution }
}

/// Belts count from 1.
impl Listed {
    pub fn lower(&self) -> u64 {
        self.solution.answer[2]
    }

    pub fn upper(&self) -> u64 {
        self.solution.answer[0] * self.solution.answer[1]
    }

    pub fn total(&self) -> Fraction {
        Fraction::new(self.upper(), self.lower())
    }

    pub fn bound(&self) -> Fraction {
        Fraction::new(self.solution.answer[3], self.solution.answer[4])
    }

    pub fn belt(&self, number: usize) -> u64 {
        self.solution.loads[number - 1] * self.solution.answer[1]
    }

    pub fn carried(&self, number: usize) -> Fraction {
        Fraction::new(self.belt(number), self.lower())
    }

    pub fn capacity(&self, number: usize) -> u64 {
        self.net.arcs[number - 1].capacity
    }

    /// A fraction over the lower number of the total, and that of the bound.
    pub fn over(&self, upper: u64) -> String {
        let lower = self.lower();
        format!("{upper}/{lower} = {}", Fraction::new(upper, lower).short())
    }

    pub fn bound_fraction(&self) -> String {
        let [_, _, _, weight, alpha, ..] = self.solution.answer;
        format!("{weight}/{alpha} = {}", self.bound().up(3))
    }
}

/// With a comma after each three digits.
pub fn grouped(number: impl ToString) -> String {
    let digits = number.to_string();
    let first = (digits.len() + 2) % 3 + 1;
    let rest = digits.as_bytes()[first..].chunks(3).map(String::from_utf8_lossy);
    rest.fold(digits[..first].to_string(), |all, three| all + "," + &three)
}

/// The most that a floor of one pair can carry, by augmenting paths.
pub fn most(net: &Network) -> u64 {
    let mut room: Vec<[u64; 2]> = net.arcs.iter().map(|arc| [arc.capacity, 0]).collect();
    let mut carried = 0;
    while let Some(path) = augmenting(net, &room) {
        let draw = path.iter().map(|&(e, way)| room[e][way]).min().expect("the pair's ends differ");
        for (e, way) in path {
            room[e][way] -= draw;
            room[e][1 - way] += draw;
        }
        carried += draw;
    }
    carried
}

/// Arcs from the source to the sink with room left, forward (0) or back (1).
fn augmenting(net: &Network, room: &[[u64; 2]]) -> Option<Vec<(usize, usize)>> {
    let pair = net.commodities[0];
    let mut paths: Vec<Option<Vec<_>>> = vec![None; net.nodes as usize + 1];
    paths[pair.source as usize] = Some(Vec::new());
    let mut next = VecDeque::from([pair.source]);
    while let Some(node) = next.pop_front() {
        for (e, arc) in net.arcs.iter().enumerate() {
            for (way, from, to) in [(0, arc.tail, arc.head), (1, arc.head, arc.tail)] {
                if from == node && room[e][way] > 0 && paths[to as usize].is_none() {
                    let path = paths[node as usize].iter().flatten().copied();
                    paths[to as usize] = Some(path.chain([(e, way)]).collect());
                    next.push_back(to);
                }
            }
        }
    }
    paths[pair.sink as usize].take()
}
