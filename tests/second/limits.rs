//! Floors with limited stations (request C-17).

use crate::call::MOST;
use crate::network::{network, Network};
use crate::random::Random;
use crate::reversible::{self, bridge_between};
use crate::shapes::Size;

/// Which stations of a floor are limited; `Ends` are those of its pairs.
#[derive(Clone, Copy, Debug, PartialEq)]
pub enum Stations {
    None,
    Some,
    Ends,
    All,
}

pub const STATIONS: [Stations; 4] = [Stations::None, Stations::Some, Stations::Ends, Stations::All];

/// A size with room for limits at all stations.
pub fn with_limits(size: Size) -> Size {
    Size { arcs: size.arcs.min(MOST - size.nodes as usize), ..size }
}

/// Limits at the edges of their range, few, any, or such as fit the floor's belts.
pub fn limited(net: Network, stations: Stations, random: &mut Random) -> Network {
    let kind = random.index(5);
    let capacities = net.capacities();
    let limit = |random: &mut Random| match kind {
        0 => 1,
        1 => 1000,
        2 => random.pick(&[1, 2, 3, 5]),
        3 => random.between(1, 1000),
        _ => 1000.min(random.pick(&capacities) * random.between(1, 3)),
    };
    limited_by(net, stations, limit, random)
}

/// On a floor whose capacities divide 2^36 limits that do so too, many of them those of
/// belts: no starting length is rounded, and many routes are equally long.
pub fn limited_evenly(net: Network, stations: Stations, random: &mut Random) -> Network {
    let capacities = net.capacities();
    let limit = |random: &mut Random| 512.min(random.pick(&capacities) << random.between(0, 2));
    limited_by(net, stations, limit, random)
}

/// As many as there is room for. Zeros after the last are written out or not.
fn limited_by(
    net: Network,
    stations: Stations,
    mut limit: impl FnMut(&mut Random) -> u64,
    random: &mut Random,
) -> Network {
    let mut nodes: Vec<u64> = (1..=net.nodes).collect();
    nodes.retain(|node| match stations {
        Stations::None => false,
        Stations::Some => random.one_in(2),
        Stations::Ends => net.commodities.iter().any(|i| [i.source, i.sink].contains(node)),
        Stations::All => true,
    });
    random.shuffle(&mut nodes);
    nodes.truncate(MOST - net.arcs.len());
    let mut limits = vec![0; net.nodes as usize];
    nodes.iter().for_each(|node| limits[*node as usize - 1] = limit(random));
    while random.one_in(2) && limits.pop_if(|last| *last == 0).is_some() {}
    net.limited(&limits)
}

/// Three belts, or two that are as long with the limited station between them: the two
/// are taken first, though with the station they are three as well.
pub fn as_a_belt() -> Network {
    let belts = [(1, 2, 4), (2, 3, 4), (3, 5, 4), (1, 4, 4), (4, 5, 4)];
    network(5, &belts, &[(1, 5)]).limited(&[0, 0, 0, 4])
}

/// The fullest is a station where the pair's draws cancel: over it 144 were drawn and
/// 142 remain. As small as a search found it.
pub fn cancelling() -> Network {
    bridge_between(&[(1, 2, 1); 4], &[(3, 4, 1); 4], [2, 2, 6]).limited(&[0, 3])
}

/// A floor of one pair whose draws may cancel at a limited station: one end of a bridge
/// that is alike at both ends, where that may be the fullest, or anywhere.
pub fn one_pair(random: &mut Random) -> Network {
    if random.one_in(2) {
        let stations = random.pick(&[Stations::Some, Stations::All]);
        return limited(reversible::one_pair(random), stations, random);
    }
    let (number, capacity) = (random.between(3, 8), random.between(1, 40));
    let straight = random.between(1, 3) * capacity;
    let cross = [straight, straight, random.between(2, 6) * capacity];
    let [to_2, from_3] = [(1, 2), (3, 4)].map(|(a, b)| vec![(a, b, capacity); number as usize]);
    let limit = random.between(2, number) * capacity;
    bridge_between(&to_2, &from_3, cross).limited(&[0, limit])
}

/// Only the last belt joins the pair. Belts and limits are m together, the limits at
/// stations that the other belts touch.
pub fn one_joining(m: u64, capacity: u64) -> Network {
    let limits = (m - 1).min(62) as usize;
    let mut belts = vec![(3, 4, 1); m as usize - limits - 1];
    belts.push((1, 2, capacity));
    network(64, &belts, &[(1, 2)]).limited(&[&[0, 0], &vec![1; limits][..]].concat())
}
