//! The method of document 01 with at most one slip, on floors without limits: the run
//! of `solver` again, each rule that may slip in a function of its own. Kept besides
//! is what the proof speaks of: the last lengths, the halvings and the last fraction.

use crate::method::{fraction_below, fullest, grown, halved, start, threshold, weight};
use crate::method::{MARK, SCALE};
use crate::network::Network;
use crate::rounded::Fraction;
use crate::solver::{choose, Choice};

/// Document 01, "Where the method slips"; its first slip has three places.
#[derive(Clone, Copy, Debug, PartialEq)]
pub enum Slip {
    None,
    StartDown,
    GrowthDown,
    HalvingDown,
    ScaleByMark,
    LastBound,
    LevelZero,
}

/// D over alpha, and the iteration that met it.
#[derive(Clone, Copy)]
pub struct Met {
    pub weight: u64,
    pub alpha: u64,
    pub iteration: u64,
}

impl Met {
    pub fn fraction(self) -> Fraction {
        Fraction::new(self.weight, self.alpha)
    }
}

#[derive(Clone)]
pub struct Run<'a> {
    pub net: &'a Network,
    pub q: u64,
    pub slip: Slip,
    pub mark: u64,
    pub lengths: Vec<u64>,
    pub loads: Vec<u64>,
    pub drawn: u64,
    pub iterations: u64,
    pub halvings: u32,
    pub least: Met,
    pub last: Met,
}

/// For joined floors. Lengths of 0 do no harm: each arc of a walk counts too.
pub fn run(net: &Network, q: u64, slip: Slip) -> Run<'_> {
    run_seen(net, q, slip, |_| ())
}

/// The run, seen before every choice and at its end.
pub fn run_seen<'a>(
    net: &'a Network,
    q: u64,
    slip: Slip,
    mut seen: impl FnMut(&Run<'a>),
) -> Run<'a> {
    let mut run = Run::new(net, q, slip);
    seen(&run);
    while !run.ended() {
        run.iterate(&choose(net, &run.lengths).expect("the floor is joined"));
        seen(&run);
    }
    run
}

impl<'a> Run<'a> {
    fn new(net: &'a Network, q: u64, slip: Slip) -> Run<'a> {
        // 1 over 0: every fraction is smaller.
        let none = Met { weight: 1, alpha: 0, iteration: 0 };
        Run {
            net,
            q,
            slip,
            mark: mark(net, q, slip),
            lengths: starts(net, slip),
            loads: vec![0; net.arcs.len()],
            drawn: 0,
            iterations: 0,
            halvings: 0,
            least: none,
            last: none,
        }
    }

    /// Tested after a choice, as document 01 has it: with T = 0 it would else
    /// hold before the first.
    fn ended(&self) -> bool {
        let mut loads = self.net.arcs.iter().zip(&self.loads);
        self.iterations > 0 && loads.any(|(arc, load)| *load >= self.mark * arc.capacity)
    }

    fn iterate(&mut self, choice: &Choice) {
        self.iterations += 1;
        self.meet(weight(&self.net.capacities(), &self.lengths), choice.alpha);
        self.draw(&choice.path);
        if self.lengths.iter().any(|&length| length >= MARK) {
            self.halvings += 1;
            let slip = self.slip;
            self.lengths.iter_mut().for_each(|length| *length = halve(*length, slip));
        }
    }

    fn meet(&mut self, weight: u64, alpha: u64) {
        self.last = Met { weight, alpha, iteration: self.iterations };
        if fraction_below(weight, alpha, self.least.weight, self.least.alpha) {
            self.least = self.last;
        }
    }

    fn draw(&mut self, path: &[usize]) {
        let arcs = &self.net.arcs;
        let draw = path.iter().map(|&e| arcs[e].capacity).min().expect("a path has an arc");
        for &e in path {
            self.loads[e] += draw;
            self.lengths[e] = grow(self.lengths[e], arcs[e].capacity, draw, self.q, self.slip);
        }
        self.drawn += draw;
    }

    pub fn fullest(&self) -> usize {
        fullest(&self.net.capacities(), &self.loads)
    }

    /// c(b) over Y(b); by the slip 1 over T.
    pub fn scale(&self) -> (u64, u64) {
        let b = self.fullest();
        match self.slip {
            Slip::ScaleByMark => (1, self.mark),
            _ => (self.net.arcs[b].capacity, self.loads[b]),
        }
    }

    /// V, what the plan carries.
    pub fn total(&self) -> Fraction {
        let (upper, lower) = self.scale();
        Fraction::new(u128::from(self.drawn) * u128::from(upper), lower)
    }

    pub fn bound(&self) -> Met {
        match self.slip {
            Slip::LastBound => self.last,
            _ => self.least,
        }
    }
}

pub fn starts(net: &Network, slip: Slip) -> Vec<u64> {
    match slip {
        Slip::StartDown => net.arcs.iter().map(|arc| SCALE / arc.capacity).collect(),
        _ => start(&net.capacities()),
    }
}

fn mark(net: &Network, q: u64, slip: Slip) -> u64 {
    match (slip, net.arcs.len()) {
        (Slip::LevelZero, 1) => 0,
        (_, m) => threshold(m, q),
    }
}

fn grow(length: u64, capacity: u64, draw: u64, q: u64, slip: Slip) -> u64 {
    match slip {
        Slip::GrowthDown => length + length * draw / (q * capacity),
        _ => grown(length, capacity, draw, q),
    }
}

fn halve(length: u64, slip: Slip) -> u64 {
    match slip {
        Slip::HalvingDown => length / 2,
        _ => halved(length),
    }
}
