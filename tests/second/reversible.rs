//! Floors with reversible belts (request C-12).

use crate::network::{network, Network, Solution};
use crate::random::Random;
use crate::shapes::two_nodes;

/// Any number but zero marks a belt; these mean the same.
pub const MARKS: [u64; 4] = [1, 2, 1 << 63, u64::MAX];

/// How many of a floor's belts are reversible.
#[derive(Clone, Copy, Debug, PartialEq)]
pub enum Share {
    None,
    Some,
    All,
}

pub const SHARES: [Share; 3] = [Share::None, Share::Some, Share::All];

/// The marks of every second floor could be capacities.
pub fn marked(mut net: Network, share: Share, random: &mut Random) -> Network {
    let small = random.one_in(2);
    for arc in &mut net.arcs {
        let reversible = match share {
            Share::None => false,
            Share::Some => random.one_in(2),
            Share::All => true,
        };
        if reversible {
            arc.mark = if small { random.between(1, 1000) } else { random.pick(&MARKS) };
        }
    }
    net
}

/// A floor with what was drawn over one of its belts, and what remains of it in each
/// pair's row of the flow table.
pub struct Stated {
    pub name: &'static str,
    pub net: Network,
    pub q: u64,
    pub belt: usize,
    pub drawn: u64,
    pub amounts: &'static [i64],
}

/// The bridges are as small as a search found them. Over the second one's middle belt
/// more is drawn than over any other, for its capacity: by the net amount it would
/// not be the fullest.
pub fn stated() -> Vec<Stated> {
    let against = network(2, &[(2, 1, 5)], &[(1, 2)]).reversible(&[1]);
    let feeders = [(1, 2, 2), (2, 3, 3), (3, 4, 2), (5, 3, 2), (2, 6, 2)];
    let opposite = network(6, &feeders, &[(1, 4), (5, 6)]).reversible(&[2]);
    let belts = [(1, 4, 1), (4, 2, 4), (3, 4, 9), (1, 3, 7), (3, 2, 7)];
    let bridge = network(4, &belts, &[(1, 2)]).reversible(&[3]);
    let fullest = bridge_between(&[(1, 2, 1); 7], &[(3, 4, 1); 7], [2, 2, 3]);
    let stated = |name, net, belt, drawn, amounts| Stated { name, net, q: 4, belt, drawn, amounts };
    vec![
        stated("a belt taken from head to tail", against, 1, 20, &[-20]),
        stated("two pairs in opposite directions", opposite, 2, 96, &[48, -48]),
        stated("a bridge crossed in both directions", bridge, 3, 62, &[58]),
        stated("a bridge that is the fullest belt", fullest, 17, 156, &[152]),
    ]
}

type Belts<'a> = &'a [(u64, u64, u64)];

/// From station 1 to 4: belts to 2, belts from 3, then 1 to 3, 2 to 4 and the bridge
/// between 2 and 3, which alone is reversible, of these capacities.
pub fn bridge_between(to_2: Belts, from_3: Belts, [upper, lower, bridge]: [u64; 3]) -> Network {
    let cross = [(1, 3, upper), (2, 4, lower), (2, 3, bridge)];
    let belts = [to_2, from_3, &cross].concat();
    network(4, &belts, &[(1, 4)]).reversible(&[belts.len()])
}

/// A floor of one pair whose draws may cancel: on a bridge, or anywhere.
pub fn one_pair(random: &mut Random) -> Network {
    match random.between(0, 2) {
        0 => bridge(random),
        1 => even_bridge(random),
        _ => tangle(random),
    }
}

fn bridge(random: &mut Random) -> Network {
    let [one, two] = [0; 2].map(|_| random.between(1, 8) as usize);
    let capacities = [0; 5].map(|_| random.between(1, 9));
    let [to_2, from_3, cross @ ..] = capacities;
    bridge_between(&vec![(1, 2, to_2); one], &vec![(3, 4, from_3); two], cross)
}

/// Alike at both ends, so that the bridge fills as the belts beside it do.
fn even_bridge(random: &mut Random) -> Network {
    let (number, capacity) = (random.between(4, 10) as usize, random.between(1, 100));
    let straight = random.between(1, 3) * capacity;
    let cross = [straight, straight, random.between(2, 4) * capacity];
    bridge_between(&vec![(1, 2, capacity); number], &vec![(3, 4, capacity); number], cross)
}

fn tangle(random: &mut Random) -> Network {
    let (nodes, most) = (random.between(4, 7), random.pick(&[3, 10, 1000]));
    let belt = |random: &mut Random| {
        let (tail, head) = two_nodes(1, nodes, random);
        (tail, head, random.between(1, most))
    };
    let belts: Vec<_> = (0..random.between(5, 14)).map(|_| belt(random)).collect();
    let share = random.pick(&[Share::Some, Share::All]);
    marked(network(nodes, &belts, &[(1, 2)]), share, random)
}

/// With the opposite of each pair after them all.
pub fn both_ways(mut net: Network) -> Network {
    for mut commodity in net.commodities.clone() {
        (commodity.source, commodity.sink) = (commodity.sink, commodity.source);
        net.commodities.push(commodity);
    }
    net
}

/// Whether on some belt less remains than was drawn.
pub fn cancels(net: &Network, solution: &Solution) -> bool {
    let m = net.arcs.len();
    let amounts = |e| solution.flow.iter().skip(e).step_by(m);
    let size = |e| amounts(e).map(|amount| amount.unsigned_abs()).sum::<u64>();
    (0..m).any(|e| size(e) < solution.loads[e])
}

/// Of m belts only the last joins the pair, against its direction; the others, which
/// are reversible too, lie elsewhere.
pub fn one_joining(m: u64, capacity: u64) -> Network {
    let mut belts = vec![(3, 4, 1); m as usize - 1];
    belts.push((2, 1, capacity));
    let all: Vec<usize> = (1..=belts.len()).collect();
    network(4, &belts, &[(1, 2)]).reversible(&all)
}
