//! The method once more, each rule about reversible belts (request C-12) or limited
//! stations (C-17) a part that `wrong` can put another in place of.

use crate::call::Call;
use crate::method::{
    fraction_below, fullest, grown, halved, start, threshold, weight, Bound, MARK,
};
use crate::network::{Arc, Commodity, Network, Solution};
use crate::outside::taken;
use crate::solver::{choose, Choice};

/// What was drawn of one commodity over one arc, from tail to head and back.
#[derive(Clone, Copy, Default)]
pub struct Drawn {
    pub ahead: u64,
    pub back: u64,
}

impl Drawn {
    pub fn signed(self) -> i64 {
        self.ahead as i64 - self.back as i64
    }
}

/// How many resources a rule looks at: the arcs come first.
type Number = fn(&Network) -> usize;

/// Whether a limited node counts for the paths of a commodity.
type Counts = fn(&Commodity, u64) -> bool;

#[derive(Clone, Copy)]
pub struct Program {
    pub name: &'static str,
    pub read: fn(&Arc) -> Arc,
    /// Of one commodity.
    pub choose: fn(&Network, &[u64]) -> Option<Choice>,
    /// In the length of a path.
    pub seen: Counts,
    /// In what is drawn over.
    pub used: Counts,
    /// In T, in D, in the draw, in when choosing ends, in whether to halve, in halving.
    pub in_threshold: Number,
    pub in_weight: Number,
    pub in_draw: Number,
    pub in_end: Number,
    pub in_mark: Number,
    pub in_halving: Number,
    /// Of an arc, given what was drawn of each commodity.
    pub load: fn(&[Drawn]) -> u64,
    /// Of a node, given what was drawn over it and what the amounts take of it.
    pub node_load: fn(u64, u64) -> u64,
    pub fullest: fn(&Network, &[u64]) -> usize,
    pub amount: fn(Drawn) -> i64,
}

pub fn all(net: &Network) -> usize {
    net.capacities().len()
}

/// The method as it should be.
pub const RIGHT: Program = Program {
    name: "right",
    read: |arc| *arc,
    choose,
    seen: |_, _| true,
    used: |_, _| true,
    in_threshold: all,
    in_weight: all,
    in_draw: all,
    in_end: all,
    in_mark: all,
    in_halving: all,
    load: |drawn| drawn.iter().map(|drawn| drawn.ahead + drawn.back).sum(),
    node_load: |drawn, _| drawn,
    fullest: |net, loads| fullest(&net.capacities(), loads),
    amount: Drawn::signed,
};

impl Program {
    /// Whether the bytes that a caller sees are other than those of the solution. What
    /// is refused is, and so is a run that does not end in time.
    pub fn differs(&self, net: &Network, q: u64, solution: &Solution) -> bool {
        let read = Network { arcs: net.arcs.iter().map(self.read).collect(), ..net.clone() };
        let call = Call::new(net, q);
        Call::new(&read, q).refusal().is_some()
            || self.solve(&read, q).is_none_or(|own| call.written(&own) != call.written(solution))
    }

    /// None after the m * T iterations that the method never passes, and at a length that
    /// it never comes near.
    fn solve(&self, net: &Network, q: u64) -> Option<Solution> {
        let most = all(net) as u64 * threshold(all(net), q);
        let threshold = threshold((self.in_threshold)(net), q);
        let mut run = Run::new(net, q, *self);
        while !run.reached(threshold) {
            if run.iterations == most || run.lengths.iter().any(|length| *length > MARK << 8) {
                return None;
            }
            match run.choose() {
                Some(choice) => run.iterate(&choice),
                None => return Some(Solution::unjoined(net)),
            }
        }
        Some(run.solution())
    }
}

struct Run<'a> {
    net: &'a Network,
    q: u64,
    program: Program,
    capacities: Vec<u64>,
    lengths: Vec<u64>,
    /// Arc by arc, so that a load has its commodities side by side.
    drawn: Vec<Drawn>,
    /// By limited node.
    visited: Vec<u64>,
    total: u64,
    iterations: u64,
    bound: Bound,
}

impl<'a> Run<'a> {
    fn new(net: &'a Network, q: u64, program: Program) -> Run<'a> {
        let (m, capacities) = (net.arcs.len(), net.capacities());
        let lengths = start(&capacities);
        Run {
            net,
            q,
            program,
            drawn: vec![Drawn::default(); m * net.commodities.len()],
            visited: vec![0; capacities.len() - m],
            capacities,
            total: 0,
            iterations: 0,
            // 1 over 0 stands for no bound: every fraction is smaller.
            bound: Bound { weight: 1, alpha: 0, iteration: 0, lengths: lengths.clone() },
            lengths,
        }
    }

    fn choose(&self) -> Option<Choice> {
        let mut best: Option<Choice> = None;
        for (commodity, pair) in self.net.commodities.iter().enumerate() {
            let alone = Network { commodities: vec![*pair], ..self.net.clone() };
            let found = (self.program.choose)(&alone, &self.seen(pair));
            let Some(choice) = found else { continue };
            if best.as_ref().is_none_or(|best| choice.alpha < best.alpha) {
                best = Some(Choice { commodity, ..choice });
            }
        }
        best
    }

    /// The lengths as a commodity's paths have them.
    fn seen(&self, pair: &Commodity) -> Vec<u64> {
        let mut lengths = self.lengths.clone();
        let nodes = self.net.limited_nodes().zip(&mut lengths[self.net.arcs.len()..]);
        let unseen = nodes.filter(|(node, _)| !(self.program.seen)(pair, *node));
        unseen.for_each(|(_, length)| *length = 0);
        lengths
    }

    fn iterate(&mut self, choice: &Choice) {
        self.iterations += 1;
        let (capacities, alpha) =
            (&self.capacities[..(self.program.in_weight)(self.net)], choice.alpha);
        let weight = weight(capacities, &self.lengths);
        if fraction_below(weight, alpha, self.bound.weight, self.bound.alpha) {
            let (iteration, lengths) = (self.iterations, self.lengths.clone());
            self.bound = Bound { weight, alpha, iteration, lengths };
        }
        self.draw(choice);
        let [mark, halving] =
            [self.program.in_mark, self.program.in_halving].map(|number| number(self.net));
        if self.lengths[..mark].iter().any(|&length| length >= MARK) {
            self.lengths[..halving].iter_mut().for_each(|length| *length = halved(*length));
        }
    }

    fn draw(&mut self, choice: &Choice) {
        let (arcs, k) = (&self.net.arcs, self.net.commodities.len());
        let pair = self.net.commodities[choice.commodity];
        let uses = self.uses(&pair, &choice.path);
        let limiting = uses.iter().filter(|r| **r < (self.program.in_draw)(self.net));
        let draw = limiting.map(|r| self.capacities[*r]).min().expect("a path has an arc");
        let mut node = pair.source;
        for &e in &choice.path {
            let drawn = &mut self.drawn[e * k + choice.commodity];
            match arcs[e].tail == node {
                true => drawn.ahead += draw,
                false => drawn.back += draw,
            }
            node = arcs[e].leads(node).expect("an arc of a path leads on");
        }
        for r in uses {
            self.lengths[r] = grown(self.lengths[r], self.capacities[r], draw, self.q);
            if let Some(node) = r.checked_sub(arcs.len()) {
                self.visited[node] += draw;
            }
        }
        self.total += draw;
    }

    fn uses(&self, pair: &Commodity, path: &[usize]) -> Vec<usize> {
        let left_out = self.net.limited_nodes().filter(|node| !(self.program.used)(pair, *node));
        let left_out: Vec<usize> = left_out.filter_map(|node| self.net.resource(node)).collect();
        let mut uses = self.net.uses(pair.source, path);
        uses.retain(|r| !left_out.contains(r));
        uses
    }

    fn loads(&self) -> Vec<u64> {
        let arcs = self.drawn.chunks(self.net.commodities.len()).map(self.program.load);
        let (flow, nodes) = (self.flow(Drawn::signed), self.net.limited_nodes().zip(&self.visited));
        let node_load = self.program.node_load;
        let nodes = nodes.map(|(node, drawn)| node_load(*drawn, taken(self.net, &flow, node)));
        arcs.chain(nodes).collect()
    }

    /// Commodity by commodity.
    fn flow(&self, amount: fn(Drawn) -> i64) -> Vec<i64> {
        let k = self.net.commodities.len();
        let of = |i| self.drawn.iter().skip(i).step_by(k).copied();
        (0..k).flat_map(of).map(amount).collect()
    }

    fn reached(&self, threshold: u64) -> bool {
        let looked_at = self.capacities.iter().take((self.program.in_end)(self.net));
        looked_at.zip(self.loads()).any(|(capacity, load)| load >= threshold * capacity)
    }

    fn solution(self) -> Solution {
        let (flow, loads) = (self.flow(self.program.amount), self.loads());
        let b = (self.program.fullest)(self.net, &loads);
        let Bound { weight, alpha, iteration, lengths } = self.bound;
        let (capacity, load) = (self.capacities[b], loads[b]);
        let answer = [self.total, capacity, load, weight, alpha, self.iterations, iteration];
        Solution { flow, lengths, loads, answer }
    }
}
