//! A network and what a solver says of it. Stations of document 01 are nodes
//! here, belts arcs, pairs commodities, routes paths, choices iterations.
//! Nodes count from 1; an arc or a commodity stands at its number less 1. Belts may
//! be reversible (request C-12), stations limited (C-17). Arcs, and after them the
//! limited nodes in ascending order, are the resources.

#[derive(Clone, Copy, Debug, PartialEq)]
pub struct Arc {
    pub tail: u64,
    pub head: u64,
    pub capacity: u64,
    pub mark: u64,
}

impl Arc {
    pub fn one_way(tail: u64, head: u64, capacity: u64) -> Arc {
        Arc { tail, head, capacity, mark: 0 }
    }

    /// Request C-12: any mark but zero.
    pub fn reversible(&self) -> bool {
        self.mark != 0
    }

    /// The node that a path comes to if it takes the arc at this one.
    pub fn leads(&self, from: u64) -> Option<u64> {
        if from == self.tail {
            Some(self.head)
        } else if from == self.head && self.reversible() {
            Some(self.tail)
        } else {
            None
        }
    }
}

#[derive(Clone, Copy, Debug, PartialEq)]
pub struct Commodity {
    pub source: u64,
    pub sink: u64,
}

/// A node without a limit has a zero among `limits`, or no number any more.
#[derive(Clone, Debug)]
pub struct Network {
    pub nodes: u64,
    pub arcs: Vec<Arc>,
    pub commodities: Vec<Commodity>,
    pub limits: Vec<u64>,
}

/// A network written out: belts as (tail, head, capacity), none of them reversible,
/// pairs as (source, sink), and no limits.
pub fn network(nodes: u64, belts: &[(u64, u64, u64)], pairs: &[(u64, u64)]) -> Network {
    let arc = |&(tail, head, capacity): &(u64, u64, u64)| Arc::one_way(tail, head, capacity);
    let commodity = |&(source, sink): &(u64, u64)| Commodity { source, sink };
    Network {
        nodes,
        arcs: belts.iter().map(arc).collect(),
        commodities: pairs.iter().map(commodity).collect(),
        limits: Vec::new(),
    }
}

impl Network {
    /// With the belts of these numbers, from 1, reversible.
    pub fn reversible(mut self, belts: &[usize]) -> Network {
        belts.iter().for_each(|belt| self.arcs[belt - 1].mark = 1);
        self
    }

    /// With these limits, from station 1 on.
    pub fn limited(self, limits: &[u64]) -> Network {
        Network { limits: limits.to_vec(), ..self }
    }

    pub fn limited_nodes(&self) -> impl Iterator<Item = u64> + '_ {
        (1..=self.nodes).zip(&self.limits).filter(|(_, limit)| **limit != 0).map(|(node, _)| node)
    }

    /// Of every resource.
    pub fn capacities(&self) -> Vec<u64> {
        let limits = self.limited_nodes().map(|node| self.limits[node as usize - 1]);
        self.arcs.iter().map(|arc| arc.capacity).chain(limits).collect()
    }

    /// The resource that a limited node is.
    pub fn resource(&self, node: u64) -> Option<usize> {
        Some(self.arcs.len() + self.limited_nodes().position(|limited| limited == node)?)
    }

    /// What each node adds to the length of a path that visits it, be it the first or
    /// the last.
    pub fn node_lengths(&self, lengths: &[u64]) -> [u64; 65] {
        let mut own = [0; 65];
        for (node, length) in self.limited_nodes().zip(&lengths[self.arcs.len()..]) {
            own[node as usize] = *length;
        }
        own
    }

    /// The resources of a path from this node: its arcs and the limited nodes that it
    /// visits.
    pub fn uses(&self, from: u64, path: &[usize]) -> Vec<usize> {
        let mut uses: Vec<usize> = self.resource(from).into_iter().collect();
        let mut node = from;
        for &e in path {
            node = self.arcs[e].leads(node).expect("an arc of a path leads on");
            uses.push(e);
            uses.extend(self.resource(node));
        }
        uses
    }
}

/// The seven numbers of the answer, in document 01's order: F, c(b), Y(b), the
/// bound's D and alpha, the count of iterations, and which gave the bound.
pub type Answer = [u64; 7];

/// `flow` holds the amounts commodity by commodity, below zero from head to tail,
/// `lengths` the kept ones. `loads`, which no lent table has, are all that was drawn
/// over each resource, before opposite draws of one commodity cancel.
#[derive(Clone, Debug, PartialEq)]
pub struct Solution {
    pub flow: Vec<i64>,
    pub lengths: Vec<u64>,
    pub loads: Vec<u64>,
    pub answer: Answer,
}

impl Solution {
    /// Document 01, "One choice of route": no commodity's sink can be reached.
    pub fn unjoined(net: &Network) -> Solution {
        let resources = net.capacities().len();
        Solution {
            flow: vec![0; net.commodities.len() * net.arcs.len()],
            lengths: vec![0; resources],
            loads: vec![0; resources],
            answer: [0, 1, 1, 0, 1, 0, 0],
        }
    }
}
