//! The call of request C-15: all that a solving call does, and for each pair the whole
//! totes an hour in its scaled amount, with the exact remainder.

use crate::call::{get, numbers, put_all, Call, Refusal, NUMBER, PAIR};
use crate::network::{Arc, Network};

/// A solving call, and the table that this one has beside it.
#[derive(Clone)]
pub struct Whole {
    pub call: Call,
    pub totes: Vec<u8>,
}

/// Whole and remainder for each complete pair, in bytes.
pub fn needed(call: &Call) -> usize {
    call.pairs.len() / PAIR * 2 * NUMBER
}

impl Whole {
    /// What the call returns, with the slices as it leaves them, given those that a
    /// solving call on the same ones leaves.
    pub fn answered(&self, solved: &Call) -> (u64, Whole) {
        match self.refusal() {
            Some(refusal) => (refusal.returned(), self.clone()),
            None => (0, self.written(solved)),
        }
    }

    /// Short totes are refused where every other short table is.
    pub fn refusal(&self) -> Option<Refusal> {
        self.call.refusal_beside(self.totes.len() < needed(&self.call))
    }

    fn written(&self, solved: &Call) -> Whole {
        let net = self.call.network();
        let [capacity, load] = [1, 2].map(|place| get(&solved.answer, place));
        let mut totes = self.totes.clone();
        put_all(&mut totes, &whole_totes(&carried(&net, &amounts(solved)), capacity, load));
        Whole { call: solved.clone(), totes }
    }
}

pub fn amounts(solved: &Call) -> Vec<i64> {
    numbers(&solved.flow).into_iter().map(|amount| amount as i64).collect()
}

/// Of each commodity: what leaves its source less what enters it, never below zero since
/// it is the sum of its draws.
pub fn carried(net: &Network, flow: &[i64]) -> Vec<u64> {
    let rows = net.commodities.iter().zip(flow.chunks(net.arcs.len()));
    let carried = |source: u64, row: &[i64]| {
        let out = |arc: &Arc| i64::from(arc.tail == source) - i64::from(arc.head == source);
        let sum: i64 = net.arcs.iter().zip(row).map(|(arc, amount)| out(arc) * amount).sum();
        u64::try_from(sum).expect("more leaves a source than enters it")
    };
    rows.map(|(commodity, row)| carried(commodity.source, row)).collect()
}

/// amount × c(b) = whole × Y(b) + remainder, for one commodity after the other. Nothing
/// is carried where none is joined, and c(b) and Y(b) are 1.
pub fn whole_totes(carried: &[u64], capacity: u64, load: u64) -> Vec<u64> {
    let told = |amount: &u64| [amount * capacity / load, amount * capacity % load];
    carried.iter().flat_map(told).collect()
}
