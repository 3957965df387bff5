//! The second solver, plain form: written from document 01, the tie rule of request
//! C-16, the reversible belts of C-12 and the limited stations of C-17, step by step,
//! with a Bellman-Ford search for every commodity at every iteration.

use crate::method::{
    fraction_below, fullest, grown, halved, start, threshold, weight, Bound, MARK,
};
use crate::network::{Network, Solution};

/// How far a node is from a sink: the least length of a path, with that of both its
/// ends, and of the paths as short the fewest arcs. They are compared in this order.
#[derive(Clone, Copy, PartialEq, Eq, PartialOrd, Ord)]
pub struct Distance {
    pub length: u64,
    pub arcs: u64,
}

pub const UNREACHED: Distance = Distance { length: u64::MAX, arcs: u64::MAX };

impl Distance {
    /// With one arc before it, of this length together with that of its first node.
    pub fn after(self, length: u64) -> Distance {
        Distance { length: self.length + length, arcs: self.arcs + 1 }
    }
}

/// Distances to one sink, by node.
pub type Distances = [Distance; 65];

/// The chosen commodity, its path as arc indices, and alpha.
#[derive(Debug, PartialEq)]
pub struct Choice {
    pub commodity: usize,
    pub path: Vec<usize>,
    pub alpha: u64,
}

struct Run<'a> {
    net: &'a Network,
    q: u64,
    capacities: Vec<u64>,
    lengths: Vec<u64>,
    flow: Vec<i64>,
    loads: Vec<u64>,
    drawn: u64,
    iterations: u64,
    bound: Option<Bound>,
}

pub fn solve(net: &Network, q: u64) -> Solution {
    solve_by(choose, net, q)
}

/// The method with any way to the choice: `literal` has another.
pub fn solve_by(choose: fn(&Network, &[u64]) -> Option<Choice>, net: &Network, q: u64) -> Solution {
    let mut run = Run::new(net, q);
    let threshold = threshold(run.capacities.len(), q);
    while !run.reached(threshold) {
        match choose(net, &run.lengths) {
            Some(choice) => run.iterate(&choice),
            None => return Solution::unjoined(net),
        }
    }
    run.solution()
}

/// The lowest-numbered commodity with a shortest path, by length alone; of its
/// shortest paths those of fewest arcs, and of these the first.
pub fn choose(net: &Network, lengths: &[u64]) -> Option<Choice> {
    let mut best: Option<(usize, Distances, u64)> = None;
    for (i, commodity) in net.commodities.iter().enumerate() {
        let distances = distances(net, lengths, commodity.sink);
        let found = distances[commodity.source as usize].length;
        let least = best.as_ref().map_or(UNREACHED.length, |(_, _, alpha)| *alpha);
        if found < least {
            best = Some((i, distances, found));
        }
    }
    let (commodity, distances, alpha) = best?;
    let path = first_path(net, lengths, &distances, commodity);
    Some(Choice { commodity, path, alpha })
}

/// The distance from each node to the sink, by Bellman-Ford.
pub fn distances(net: &Network, lengths: &[u64], sink: u64) -> Distances {
    let own = net.node_lengths(lengths);
    let mut distances = [UNREACHED; 65];
    distances[sink as usize] = Distance { length: own[sink as usize], arcs: 0 };
    while relax_all(net, lengths, &own, &mut distances) {}
    distances
}

fn relax_all(net: &Network, lengths: &[u64], own: &[u64], distances: &mut Distances) -> bool {
    let mut changed = false;
    for (arc, length) in net.arcs.iter().zip(lengths) {
        for from in [arc.tail, arc.head] {
            let Some(to) = arc.leads(from) else { continue };
            let onward = distances[to as usize];
            let known = &mut distances[from as usize];
            if onward != UNREACHED && onward.after(own[from as usize] + length) < *known {
                *known = onward.after(own[from as usize] + length);
                changed = true;
            }
        }
    }
    changed
}

/// Taking the lowest-numbered arc that lies on some shortest path of fewest arcs,
/// node after node, gives the one whose arc numbers come first in dictionary order.
fn first_path(net: &Network, lengths: &[u64], distances: &Distances, i: usize) -> Vec<usize> {
    let own = net.node_lengths(lengths);
    let mut path = Vec::new();
    let mut node = net.commodities[i].source;
    while node != net.commodities[i].sink {
        let tight = |e: &usize| {
            net.arcs[*e].leads(node).is_some_and(|next| {
                let (onward, length) = (distances[next as usize], own[node as usize] + lengths[*e]);
                onward != UNREACHED && onward.after(length) == distances[node as usize]
            })
        };
        let arc = (0..net.arcs.len()).find(tight);
        let arc = arc.expect("a node that reaches the sink has a tight arc");
        path.push(arc);
        node = net.arcs[arc].leads(node).expect("a tight arc leads on");
    }
    path
}

impl<'a> Run<'a> {
    fn new(net: &'a Network, q: u64) -> Run<'a> {
        let capacities = net.capacities();
        Run {
            net,
            q,
            lengths: start(&capacities),
            flow: vec![0; net.commodities.len() * net.arcs.len()],
            loads: vec![0; capacities.len()],
            capacities,
            drawn: 0,
            iterations: 0,
            bound: None,
        }
    }

    fn iterate(&mut self, choice: &Choice) {
        self.iterations += 1;
        self.keep_bound(choice.alpha);
        self.draw(choice);
        if self.lengths.iter().any(|&length| length >= MARK) {
            self.lengths.iter_mut().for_each(|length| *length = halved(*length));
        }
    }

    /// A smaller fraction replaces the least seen, an equal one doesn't.
    fn keep_bound(&mut self, alpha: u64) {
        let weight = weight(&self.capacities, &self.lengths);
        let smaller = match &self.bound {
            None => true,
            Some(least) => fraction_below(weight, alpha, least.weight, least.alpha),
        };
        if smaller {
            let (iteration, lengths) = (self.iterations, self.lengths.clone());
            self.bound = Some(Bound { weight, alpha, iteration, lengths });
        }
    }

    fn draw(&mut self, choice: &Choice) {
        let (arcs, source) = (&self.net.arcs, self.net.commodities[choice.commodity].source);
        let uses = self.net.uses(source, &choice.path);
        let capacities = uses.iter().map(|&r| self.capacities[r]);
        let draw = capacities.min().expect("a path has an arc, as its ends differ");
        let mut node = source;
        for &e in &choice.path {
            let amount = &mut self.flow[choice.commodity * arcs.len() + e];
            *amount += if arcs[e].tail == node { draw as i64 } else { -(draw as i64) };
            node = arcs[e].leads(node).expect("an arc of a path leads on");
        }
        for r in uses {
            self.loads[r] += draw;
            self.lengths[r] = grown(self.lengths[r], self.capacities[r], draw, self.q);
        }
        self.drawn += draw;
    }

    fn reached(&self, threshold: u64) -> bool {
        let mut loads = self.capacities.iter().zip(&self.loads);
        loads.any(|(capacity, load)| *load >= threshold * capacity)
    }

    fn solution(self) -> Solution {
        let b = fullest(&self.capacities, &self.loads);
        let bound = self.bound.expect("the threshold is reached by drawing");
        let answer = [
            self.drawn,
            self.capacities[b],
            self.loads[b],
            bound.weight,
            bound.alpha,
            self.iterations,
            bound.iteration,
        ];
        Solution { flow: self.flow, lengths: bound.lengths, loads: self.loads, answer }
    }
}
