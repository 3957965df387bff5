//! The second solver, fast form: the same choices found with less work. `search`
//! finds them; here D and the tests that end or halve look only at the resources just
//! drawn over.

use crate::method::{
    fraction_below, fullest, grown, halved, start, threshold, weight, Bound, MARK,
};
use crate::network::{Network, Solution};
use crate::search::{Link, Path, Search};

struct Run<'a> {
    net: &'a Network,
    q: u64,
    capacities: Vec<u64>,
    threshold: u64,
    lengths: Vec<u64>,
    weight: u64,
    flow: Vec<i64>,
    loads: Vec<u64>,
    drawn: u64,
    iterations: u64,
    bound: Bound,
}

pub fn solve(net: &Network, q: u64) -> Solution {
    let mut search = Search::new(net);
    let mut run = Run::new(net, q);
    let mut path = Path::default();
    let mut ended = false;
    while !ended {
        let Some((commodity, alpha)) = search.choose(&run.lengths, &mut path) else {
            return Solution::unjoined(net);
        };
        run.keep_bound(alpha);
        let marked = run.draw(commodity, &path);
        ended = run.reached(&path);
        if marked {
            run.halve();
            search.halved();
        }
    }
    run.solution()
}

impl<'a> Run<'a> {
    fn new(net: &'a Network, q: u64) -> Run<'a> {
        let capacities = net.capacities();
        let lengths = start(&capacities);
        Run {
            net,
            q,
            threshold: threshold(capacities.len(), q),
            weight: weight(&capacities, &lengths),
            flow: vec![0; net.commodities.len() * net.arcs.len()],
            loads: vec![0; capacities.len()],
            capacities,
            drawn: 0,
            iterations: 0,
            // 1 over 0 stands for no bound: every fraction is smaller.
            bound: Bound { weight: 1, alpha: 0, iteration: 0, lengths: lengths.clone() },
            lengths,
        }
    }

    fn keep_bound(&mut self, alpha: u64) {
        self.iterations += 1;
        let least = &mut self.bound;
        if fraction_below(self.weight, alpha, least.weight, least.alpha) {
            least.weight = self.weight;
            least.alpha = alpha;
            least.iteration = self.iterations;
            least.lengths.copy_from_slice(&self.lengths);
        }
    }

    /// Whether a length has come to the mark.
    fn draw(&mut self, commodity: usize, path: &Path) -> bool {
        let draw = path.uses.iter().fold(u64::MAX, |least, r| least.min(self.capacities[*r]));
        for &Link { arc, forward, .. } in &path.links {
            let signed = if forward { draw as i64 } else { -(draw as i64) };
            self.flow[commodity * self.net.arcs.len() + arc] += signed;
        }
        let mut marked = false;
        for &r in &path.uses {
            let next = grown(self.lengths[r], self.capacities[r], draw, self.q);
            self.weight += self.capacities[r] * (next - self.lengths[r]);
            self.lengths[r] = next;
            self.loads[r] += draw;
            marked |= next >= MARK;
        }
        self.drawn += draw;
        marked
    }

    fn reached(&self, path: &Path) -> bool {
        let full = |r: &usize| self.loads[*r] >= self.threshold * self.capacities[*r];
        path.uses.iter().any(full)
    }

    fn halve(&mut self) {
        self.lengths.iter_mut().for_each(|length| *length = halved(*length));
        self.weight = weight(&self.capacities, &self.lengths);
    }

    fn solution(self) -> Solution {
        let b = fullest(&self.capacities, &self.loads);
        let (capacity, load) = (self.capacities[b], self.loads[b]);
        let Bound { weight, alpha, iteration, lengths } = self.bound;
        let answer = [self.drawn, capacity, load, weight, alpha, self.iterations, iteration];
        Solution { flow: self.flow, lengths, loads: self.loads, answer }
    }
}
