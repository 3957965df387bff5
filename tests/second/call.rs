//! The host's call by document 01 and requests C-12, C-17 and C-20: byte slices in, what
//! is returned and every byte of the slices out.

use crate::network::{Arc, Commodity, Network, Solution};

pub const NUMBER: usize = 8;
pub const BELT: usize = 4 * NUMBER;
pub const PAIR: usize = 2 * NUMBER;
pub const ANSWER: usize = 7 * NUMBER;
pub const FULL: u64 = 1 << 63;

/// Offices count from 1, and each has its number in the table of counts.
pub const OFFICES: usize = 8;
pub const COUNTS: usize = OFFICES * NUMBER;

/// Neither the first nor the last, so that a count at another place would show.
const OFFICE: u64 = 3;

/// Of belts and limits together.
pub const MOST: usize = 256;

/// All that the host gives, and after the call all that it finds.
#[derive(Clone, PartialEq)]
pub struct Call {
    pub n: u64,
    pub q: u64,
    pub office: u64,
    pub belts: Vec<u8>,
    pub pairs: Vec<u8>,
    pub limits: Vec<u8>,
    pub flow: Vec<u8>,
    pub length: Vec<u8>,
    pub answer: Vec<u8>,
    pub counts: Vec<u8>,
}

/// A number of document 01's table, with its place.
#[derive(Clone, Copy, Debug, PartialEq)]
pub struct Refusal {
    pub number: u64,
    pub place: u64,
}

impl Refusal {
    pub fn returned(self) -> u64 {
        self.number * 1000 + self.place
    }
}

/// The number at a place, from 0; the slice holds it whole.
pub fn get(slice: &[u8], place: usize) -> u64 {
    let bytes = &slice[place * NUMBER..][..NUMBER];
    bytes.iter().rev().fold(0, |number, byte| number << 8 | u64::from(*byte))
}

pub fn put(slice: &mut [u8], place: usize, number: u64) {
    slice[place * NUMBER..][..NUMBER].copy_from_slice(&number.to_le_bytes());
}

pub fn numbers(slice: &[u8]) -> Vec<u64> {
    (0..slice.len() / NUMBER).map(|place| get(slice, place)).collect()
}

pub fn put_all(slice: &mut [u8], numbers: &[u64]) {
    for (place, number) in numbers.iter().enumerate() {
        put(slice, place, *number);
    }
}

impl Call {
    /// Tables of exactly the needed size, all zero, the counts too.
    pub fn new(net: &Network, q: u64) -> Call {
        let (m, k) = (net.arcs.len(), net.commodities.len());
        let mut call = Call {
            n: net.nodes,
            q,
            office: OFFICE,
            belts: vec![0; m * BELT],
            pairs: vec![0; k * PAIR],
            limits: vec![0; net.limits.len() * NUMBER],
            flow: vec![0; k * m * NUMBER],
            length: vec![0; net.capacities().len() * NUMBER],
            answer: vec![0; ANSWER],
            counts: vec![0; COUNTS],
        };
        for (e, arc) in net.arcs.iter().enumerate() {
            let item = [arc.tail, arc.head, arc.capacity, arc.mark];
            put_all(&mut call.belts[e * BELT..], &item);
        }
        for (i, commodity) in net.commodities.iter().enumerate() {
            put_all(&mut call.pairs[i * PAIR..], &[commodity.source, commodity.sink]);
        }
        put_all(&mut call.limits, &net.limits);
        call
    }

    /// The network as the slices have it, checked or not. Of the limits no more are read
    /// than there are stations.
    pub fn network(&self) -> Network {
        let belt = |item: &[u8]| {
            let [tail, head, capacity, mark] = [0, 1, 2, 3].map(|place| get(item, place));
            Arc { tail, head, capacity, mark }
        };
        let pair = |item: &[u8]| Commodity { source: get(item, 0), sink: get(item, 1) };
        Network {
            nodes: self.n,
            arcs: self.belts.chunks_exact(BELT).map(belt).collect(),
            commodities: self.pairs.chunks_exact(PAIR).map(pair).collect(),
            limits: numbers(&self.limits).into_iter().take(self.n as usize).collect(),
        }
    }

    /// What the call returns, with the slices as it leaves them.
    pub fn answered(&self, solve: fn(&Network, u64) -> Solution) -> (u64, Call) {
        match self.refusal() {
            Some(refusal) => (refusal.returned(), self.clone()),
            None => (0, self.written(&solve(&self.network(), self.q))),
        }
    }

    /// Amounts by two's complement. Of the counts the office's own alone is raised.
    pub fn written(&self, solution: &Solution) -> Call {
        let mut after = self.clone();
        let amounts: Vec<u64> = solution.flow.iter().map(|amount| *amount as u64).collect();
        put_all(&mut after.flow, &amounts);
        put_all(&mut after.length, &solution.lengths);
        put_all(&mut after.answer, &solution.answer);
        put(&mut after.counts, self.own(), self.own_count() + solution.answer[5]);
        after
    }

    /// Where the office's count stands, from 0; for an office that there is.
    pub fn own(&self) -> usize {
        self.office as usize - 1
    }

    fn own_count(&self) -> u64 {
        get(&self.counts, self.own())
    }

    pub fn refusal(&self) -> Option<Refusal> {
        self.refusal_beside(false)
    }

    /// Document 01, "Turned down", in its order, with request C-17's two and C-20's one.
    /// `short` says of a table that another call has beside these whether it is too short.
    pub fn refusal_beside(&self, short: bool) -> Option<Refusal> {
        let net = self.network();
        whole_call(1, !(2..=64).contains(&self.n))
            .or_else(|| whole_call(2, !(1..=256).contains(&net.arcs.len())))
            .or_else(|| whole_call(15, net.capacities().len() > MOST))
            .or_else(|| whole_call(3, !(1..=32).contains(&net.commodities.len())))
            .or_else(|| whole_call(4, !(4..=16).contains(&self.q)))
            .or_else(|| whole_call(5, short || self.short(&net)))
            .or_else(|| whole_call(16, !(1..=OFFICES as u64).contains(&self.office)))
            .or_else(|| whole_call(11, self.own_count() > FULL))
            .or_else(|| first_faulty_belt(&net))
            .or_else(|| first_great_limit(&net))
            .or_else(|| first_loose_pair(&net))
    }

    fn short(&self, net: &Network) -> bool {
        let (m, k) = (net.arcs.len(), net.commodities.len());
        self.flow.len() / NUMBER < k * m
            || self.length.len() / NUMBER < net.capacities().len()
            || self.answer.len() / NUMBER < 7
            || self.counts.len() / NUMBER < OFFICES
    }
}

fn whole_call(number: u64, holds: bool) -> Option<Refusal> {
    holds.then_some(Refusal { number, place: 0 })
}

fn loose(n: u64, a: u64, b: u64) -> bool {
    !(1..=n).contains(&a) || !(1..=n).contains(&b) || a == b
}

fn first_faulty_belt(net: &Network) -> Option<Refusal> {
    net.arcs.iter().zip(1..).find_map(|(arc, place)| {
        if loose(net.nodes, arc.tail, arc.head) {
            return Some(Refusal { number: 6, place });
        }
        let fits = (1..=1000).contains(&arc.capacity);
        (!fits).then_some(Refusal { number: 7, place })
    })
}

fn first_great_limit(net: &Network) -> Option<Refusal> {
    let mut limits = net.limits.iter().zip(1..);
    let (_, place) = limits.find(|(limit, _)| **limit > 1000)?;
    Some(Refusal { number: 14, place })
}

fn first_loose_pair(net: &Network) -> Option<Refusal> {
    let mut pairs = net.commodities.iter().zip(1..);
    let fault = pairs.find(|(pair, _)| loose(net.nodes, pair.source, pair.sink))?;
    Some(Refusal { number: 8, place: fault.1 })
}
