//! What must hold of any accepted call, read off the bytes that it leaves and not off
//! a run of the method: document 01's flow and capacities with the signs of request
//! C-12 and the limits of C-17, and the promises of total, bound and counts, with those of
//! C-20 and C-24, and of whole totes (C-15). Of the second solver it shares the load mark T
//! and how a site (C-14) is cut into floors, no more.

use crate::call::{get, numbers, put, Call, NUMBER};
use crate::method::threshold;
use crate::network::{Arc, Commodity, Network};
use crate::shares::{reaches, shares};
use crate::site::{Site, ANSWERED};
use crate::whole::Whole;

/// Longer than any path, and the sum of two still fits.
const NONE: u64 = u64::MAX / 4;

/// A belt, or a station with a limit. `size` is how much of it the flow takes, before
/// the scale. What was drawn may be more by any multiple of `step`, none if it is 0.
struct Resource {
    capacity: u64,
    size: u64,
    step: u64,
}

struct Plan {
    net: Network,
    q: u64,
    flow: Vec<i64>,
    lengths: Vec<u64>,
    answer: Vec<u64>,
    resources: Vec<Resource>,
}

/// The name of the first thing that fails.
pub fn check(before: &Call, after: &Call) -> Result<(), &'static str> {
    let plan = Plan::read(before, after);
    check_counts(before, after, plan.answer[5])?;
    match plan.answer[5] {
        0 => plan.check_unjoined(),
        _ => plan.check_joined(),
    }
}

/// The same of the totes; the rest is for the solving call on the same floor.
pub fn check_totes(before: &Whole, after: &Whole) -> Result<(), &'static str> {
    let plan = Plan::read(&before.call, &after.call);
    let written = plan.net.commodities.len() * 2 * NUMBER;
    let later = before.totes[written..] == after.totes[written..];
    holds(later, "later places of the totes are changed")?;
    plan.check_totes(&numbers(&after.totes[..written]))
}

/// The same of each floor that a site has solved, and that their choices together raise
/// the office's count.
pub fn check_site(before: &Site, after: &Site) -> Result<(), &'static str> {
    let mut counts = before.counts.clone();
    let returned = after.answers.chunks_exact(ANSWERED).map(|eight| get(eight, 0));
    let floors = before.cut().0.into_iter().zip(after.cut().0).zip(returned);
    for ((before, after), _) in floors.filter(|(_, returned)| *returned == 0) {
        holds((1..=8).contains(&before.office), "accepted for no office")?;
        let before = Call { counts: counts.clone(), ..before };
        let count = get(&counts, before.own()) + get(&after.answer, 5);
        put(&mut counts, before.own(), count);
        check(&before, &Call { counts: counts.clone(), ..after })?;
    }
    holds(counts == after.counts, "the floors' choices do not sum to what a count was raised by")
}

/// The office's own count is raised, and every other byte of the table is as it was.
fn check_counts(before: &Call, after: &Call, iterations: u64) -> Result<(), &'static str> {
    holds((1..=8).contains(&before.office), "accepted for no office")?;
    let parted = |table: &[u8]| {
        let (upto, past) = table.split_at(before.office as usize * NUMBER);
        let (others, own) = upto.split_at(upto.len() - NUMBER);
        (get(own, 0), [others, past].concat())
    };
    let ((was, others), (is, others_after)) = (parted(&before.counts), parted(&after.counts));
    holds(is == was + iterations, "the office's count is not raised by the iterations")?;
    holds(others_after == others, "another byte of the counts is changed")
}

fn holds(fact: bool, otherwise: &'static str) -> Result<(), &'static str> {
    fact.then_some(()).ok_or(otherwise)
}

fn wide(number: u64) -> u128 {
    u128::from(number)
}

impl Plan {
    fn read(before: &Call, after: &Call) -> Plan {
        let net = before.network();
        let (m, k) = (net.arcs.len(), net.commodities.len());
        let flow: Vec<i64> = numbers(&after.flow)[..k * m].iter().map(|x| *x as i64).collect();
        let belts = (0..m).map(|e| belt(&net, &flow, e));
        let limited = (1..).zip(&net.limits).filter(|(_, limit)| **limit > 0);
        let stations = limited.map(|(node, limit)| station(&net, &flow, node, *limit));
        let resources: Vec<Resource> = belts.chain(stations).collect();
        let lengths = numbers(&after.length)[..resources.len()].to_vec();
        Plan { net, q: before.q, flow, lengths, answer: numbers(&after.answer), resources }
    }

    fn check_unjoined(&self) -> Result<(), &'static str> {
        let ones = vec![1; self.resources.len()];
        holds(self.alpha(&ones) == NONE, "said to be unjoined, and a pair is joined")?;
        holds(self.answer[..7] == [0, 1, 1, 0, 1, 0, 0], "an unjoined answer has other numbers")?;
        let zeros = self.flow.iter().all(|x| *x == 0) && self.lengths.iter().all(|l| *l == 0);
        holds(zeros, "an unjoined plan is not zero")
    }

    fn check_joined(&self) -> Result<(), &'static str> {
        holds(self.runs_as_it_may(), "an amount runs against a belt that is not reversible")?;
        holds(self.balanced(), "what enters a station does not leave it")?;
        holds(self.total() == i128::from(self.answer[0]), "the pairs' amounts do not sum to F")?;
        self.check_scale()?;
        self.check_bound()?;
        let most = self.resources.len() as u64 * self.threshold();
        holds(self.answer[5] <= most, "more than m * T iterations")?;
        holds((1..=self.answer[5]).contains(&self.answer[6]), "the bound is of no iteration")
    }

    /// The wholes lack less than a tote a pair of the total.
    fn check_totes(&self, totes: &[u64]) -> Result<(), &'static str> {
        let [drawn, capacity, load] = [0, 1, 2].map(|i| wide(self.answer[i]));
        let (mut sum, pairs) = (0, self.net.commodities.iter().enumerate());
        for ((i, pair), told) in pairs.zip(totes.chunks(2)) {
            let [brought, taken] = self.at(i, pair.source);
            holds(brought == 0, "something of a pair enters its own source")?;
            let [whole, remainder] = [0, 1].map(|place| wide(told[place]));
            holds(remainder < load, "a remainder has a whole tote in it")?;
            let exact = whole * load + remainder == wide(taken) * capacity;
            holds(exact, "whole and remainder are not the scaled amount")?;
            sum += whole;
        }
        let lack = (drawn * capacity).checked_sub(sum * load);
        let within = lack.is_some_and(|lack| lack < totes.len() as u128 / 2 * load);
        holds(within, "the wholes lack a tote a pair or more, or are above the total")
    }

    fn threshold(&self) -> u64 {
        threshold(self.resources.len(), self.q)
    }

    fn check_scale(&self) -> Result<(), &'static str> {
        let (capacity, load) = (self.answer[1], self.answer[2]);
        let mut sizes = self.resources.iter();
        let fit = sizes.all(|r| wide(r.size) * wide(capacity) <= wide(r.capacity) * wide(load));
        holds(fit, "a belt or a station is over its capacity after the scale")?;
        let given = self.resources.iter().any(|r| r.capacity == capacity && r.drawn(load));
        holds(given, "the scale is no belt's and no station's")?;
        holds(load >= capacity * self.threshold(), "ended below the load mark")
    }

    /// The lengths are a certificate: D and alpha follow from them.
    fn check_bound(&self) -> Result<(), &'static str> {
        let [drawn, capacity, load, d, alpha] = [0, 1, 2, 3, 4].map(|i| wide(self.answer[i]));
        let weights = self.resources.iter().zip(&self.lengths);
        let weight: u128 = weights.map(|(r, l)| wide(r.capacity) * wide(*l)).sum();
        holds(weight == d, "D is not that of the lengths")?;
        holds(wide(self.alpha(&self.lengths)) == alpha, "alpha is not that of the lengths")?;
        let (v, b) = (drawn * capacity * alpha, d * load);
        holds(v <= b, "the total is above the bound")?;
        let missed = shares(self.q).into_iter().find(|(_, share)| !reaches(v, *share, b));
        missed.map_or(Ok(()), |(promise, _)| Err(promise))
    }

    fn alpha(&self, lengths: &[u64]) -> u64 {
        let own = own_lengths(&self.net, lengths);
        let shortest = shortest(&self.net, lengths, &own);
        let of = |pair: &Commodity| {
            let (source, sink) = (pair.source as usize, pair.sink as usize);
            NONE.min(own[source] + shortest[source][sink])
        };
        self.net.commodities.iter().map(of).min().unwrap_or(NONE)
    }

    fn runs_as_it_may(&self) -> bool {
        let arcs = self.net.arcs.iter().cycle();
        arcs.zip(&self.flow).all(|(arc, amount)| *amount >= 0 || arc.mark != 0)
    }

    fn at(&self, i: usize, node: u64) -> [u64; 2] {
        at(&self.net.arcs, &self.flow[i * self.net.arcs.len()..], node)
    }

    fn net_out(&self, i: usize, node: u64) -> i128 {
        let [brought, taken] = self.at(i, node);
        i128::from(taken) - i128::from(brought)
    }

    fn balanced(&self) -> bool {
        self.net.commodities.iter().enumerate().all(|(i, pair)| {
            let mut others = (1..=self.net.nodes).filter(|v| ![pair.source, pair.sink].contains(v));
            others.all(|node| self.net_out(i, node) == 0)
        })
    }

    fn total(&self) -> i128 {
        let pairs = self.net.commodities.iter().enumerate();
        pairs.map(|(i, pair)| self.net_out(i, pair.source)).sum()
    }
}

/// What one commodity, whose row this is, brings to a node and takes from it.
fn at(arcs: &[Arc], row: &[i64], node: u64) -> [u64; 2] {
    let mut at = [0, 0];
    for (arc, amount) in arcs.iter().zip(row) {
        let ends = if *amount < 0 { [arc.tail, arc.head] } else { [arc.head, arc.tail] };
        let touched = at.iter_mut().zip(ends).filter(|(_, end)| *end == node);
        touched.for_each(|(sum, _)| *sum += amount.unsigned_abs());
    }
    at
}

/// What cancels on a belt is drawn twice, once in each direction.
fn belt(net: &Network, flow: &[i64], e: usize) -> Resource {
    let amounts = flow.iter().skip(e).step_by(net.arcs.len());
    let size = amounts.map(|amount| amount.unsigned_abs()).sum();
    let step = if net.arcs[e].mark != 0 { 2 } else { 0 };
    Resource { capacity: net.arcs[e].capacity, size, step }
}

fn station(net: &Network, flow: &[i64], node: u64, limit: u64) -> Resource {
    let touches = |arc: &&Arc| [arc.tail, arc.head].contains(&node);
    let cancels = net.arcs.iter().filter(touches).any(|arc| arc.mark != 0);
    Resource { capacity: limit, size: taken(net, flow, node), step: u64::from(cancels) }
}

/// Of a node: the larger of what a commodity brings and what it takes away, summed.
pub fn taken(net: &Network, flow: &[i64], node: u64) -> u64 {
    let each = flow.chunks(net.arcs.len()).map(|row| at(&net.arcs, row, node));
    each.map(|[brought, taken]| brought.max(taken)).sum()
}

impl Resource {
    /// Whether so much can have been drawn over it.
    fn drawn(&self, load: u64) -> bool {
        self.size == load
            || self.step > 0 && self.size < load && (load - self.size) % self.step == 0
    }
}

/// By node: the lengths after those of the belts are the limited stations', in order.
fn own_lengths(net: &Network, lengths: &[u64]) -> Vec<u64> {
    let mut lengths = lengths[net.arcs.len()..].iter();
    let mut own = vec![0; net.nodes as usize + 1];
    for (length, limit) in own[1..].iter_mut().zip(&net.limits) {
        if *limit > 0 {
            *length = *lengths.next().expect("a length for each limit");
        }
    }
    own
}

/// The least length of a path between any two nodes, without that of the first itself,
/// through more and more of them (Floyd and Warshall).
fn shortest(net: &Network, lengths: &[u64], own: &[u64]) -> Vec<Vec<u64>> {
    let nodes = net.nodes as usize + 1;
    let mut shortest = vec![vec![NONE; nodes]; nodes];
    for (arc, length) in net.arcs.iter().zip(lengths) {
        let (tail, head) = (arc.tail as usize, arc.head as usize);
        shortest[tail][head] = shortest[tail][head].min(length + own[head]);
        if arc.mark != 0 {
            shortest[head][tail] = shortest[head][tail].min(length + own[tail]);
        }
    }
    for through in 1..nodes {
        let onward = shortest[through].clone();
        for row in &mut shortest {
            let so_far = row[through];
            row.iter_mut().zip(&onward).for_each(|(l, more)| *l = (*l).min(so_far + more));
        }
    }
    shortest
}
