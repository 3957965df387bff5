//! The full-size floors that are timed, the same for every program with the same
//! seed, and the mean of what they gave.

use crate::call::Call;
use crate::floors::{self, Capacities};
use crate::random::Random;
use crate::shapes::{Size, FULL_SIZE, SHAPES};

/// Those that are timed where none is asked for.
pub const PRECISIONS: [u64; 3] = [4, 8, 16];

pub fn precision(word: &str) -> Option<u64> {
    word.parse().ok().filter(|q| floors::PRECISIONS.contains(q))
}

/// Whether every belt is reversible, and whether every station has a limit.
#[derive(Clone, Copy, Default)]
pub struct Kind {
    pub marked: bool,
    pub limited: bool,
}

impl Kind {
    /// Belts and limits are 256 together.
    fn size(self) -> Size {
        let limits = if self.limited { FULL_SIZE.nodes as usize } else { 0 };
        Size { arcs: FULL_SIZE.arcs - limits, ..FULL_SIZE }
    }

    /// What stands before the precision in a heading.
    pub fn named(self) -> String {
        let belts = if self.marked { "reversible belts, " } else { "" };
        let stations = if self.limited { "limited stations, " } else { "" };
        format!("{belts}{stations}")
    }

    pub fn described(self, seed: u64) -> String {
        let Size { nodes, arcs, commodities } = self.size();
        let belts = if self.marked { "belts all reversible, " } else { "" };
        let stations = if self.limited { " and limits of all stations" } else { "" };
        format!(
            "n {nodes}, m {arcs}, k {commodities}, {belts}capacities{stations} 1 to 1,000, seed {seed}"
        )
    }
}

pub fn floors_at(q: u64, seed: u64, kind: Kind) -> Vec<(String, Call)> {
    let mut random = Random::new(seed);
    let mut call = |shape| {
        let mut net = floors::floor(shape, kind.size(), Capacities::Mixed, &mut random);
        net.arcs.iter_mut().for_each(|arc| arc.mark = u64::from(kind.marked));
        if kind.limited {
            net.limits = (0..net.nodes).map(|_| random.between(1, 1000)).collect();
        }
        Call::new(&net, q)
    };
    SHAPES.into_iter().map(|shape| (format!("{shape:?}"), call(shape))).collect()
}

pub fn mean(ratios: impl Iterator<Item = f64>) -> f64 {
    let logs: Vec<f64> = ratios.map(f64::ln).collect();
    (logs.iter().sum::<f64>() / logs.len() as f64).exp()
}
