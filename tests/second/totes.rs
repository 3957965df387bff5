//! The comparison of whole totes (request C-15): what is stated by hand, tables about as
//! long as they need be, too short ones beside every other fault, and pairs that carry
//! nothing. On the other floors `tally` has a share solved by this call too.

use crate::call::{get, numbers, Call, Refusal, NUMBER};
use crate::damage::{self, sound};
use crate::floors::{self, CAPACITIES, PRECISIONS};
use crate::limits::{limited, STATIONS};
use crate::network::{network, Arc, Commodity, Network};
use crate::random::Random;
use crate::reversible::{self, marked, SHARES};
use crate::shapes::{Size, SHAPES};
use crate::tally::{holds, Tally};
use crate::whole::{amounts, carried, needed, whole_totes, Whole};
use crate::{fast, is, solver, timed};

/// What a table has beyond the bytes that are needed, and what it lacks of them.
const MORE: [usize; 6] = [0, 0, 3, NUMBER, 5 * NUMBER, 6 * NUMBER - 1];
const LESS: [usize; 3] = [1, NUMBER, usize::MAX];

/// A byte that no small number has.
const STRANGE: u8 = 0xa5;

/// So many floors with idle pairs.
const IDLE: u64 = 650;

/// With totes of strange bytes, one time in eight too short.
pub fn lent(call: &Call, random: &mut Random) -> Whole {
    let needed = needed(call);
    let size = match random.one_in(8) {
        true => needed.saturating_sub(random.pick(&LESS)),
        false => needed + random.pick(&MORE),
    };
    Whole { call: call.clone(), totes: random.bytes(size) }
}

pub fn compare(tally: &mut Tally, seed: u64) {
    timed("whole totes, stated", tally, compare_stated);
    timed("whole totes, short beside another fault", tally, compare_faulty);
    timed("whole totes, tables of any size", tally, |tally| {
        compare_sizes(tally, &mut Random::new(seed))
    });
    timed("whole totes, pairs that carry nothing", tally, |tally| {
        compare_idle(tally, &mut Random::new(seed + 1))
    });
}

fn compare_stated(tally: &mut Tally) {
    for (name, net, totes) in stated() {
        let call = Call::new(&net, 4);
        let (_, solved) = call.answered(solver::solve);
        let whole = Whole { totes: vec![STRANGE; needed(&call)], call };
        let after = tally.compare_whole(name, &whole, &solved);
        let as_stated = holds(numbers(&after.totes) == totes, "not as stated");
        tally.judge(name, Some(&whole.call), as_stated);
    }
}

/// By hand, at q = 4: whole and remainder of each pair. Document 01 prints amount and scale
/// of the first three. Of the opposite pairs each has 48, and the scale is 3 over 96.
fn stated() -> Vec<(&'static str, Network, &'static [u64])> {
    let one = |pairs| network(2, &[(1, 2, 5)], pairs);
    let beside = network(2, &[(1, 2, 1), (1, 2, 1)], &[(1, 2)]);
    let row = network(3, &[(1, 2, 2), (2, 3, 3)], &[(1, 3), (2, 3)]);
    let against = network(2, &[(2, 1, 5)], &[(1, 2)]).reversible(&[1]);
    let opposite = reversible::stated().swap_remove(1).net;
    let last = |pairs| network(3, &[(2, 3, 7)], pairs);
    let lift = network(3, &[(1, 2, 5), (2, 3, 7)], &[(1, 3)]).limited(&[0, 3]);
    vec![
        ("one belt of 5", one(&[(1, 2)]), &[5, 0]),
        ("two belts side by side", beside, &[1, 15]),
        ("two belts in a row", row, &[0, 0, 3, 0]),
        ("a belt taken from head to tail", against, &[5, 0]),
        ("two pairs in opposite directions", opposite, &[1, 48, 1, 48]),
        ("two equal pairs", one(&[(1, 2), (1, 2)]), &[5, 0, 0, 0]),
        ("the second pair alone joined", last(&[(1, 3), (2, 3)]), &[0, 0, 7, 0]),
        ("no pair joined", last(&[(1, 3), (3, 1)]), &[0, 0, 0, 0]),
        ("a limit between two belts", lift, &[3, 0]),
    ]
}

fn compare_faulty(tally: &mut Tally) {
    let needed = needed(&sound());
    for case in damage::beside_short("totes") {
        for size in [0, NUMBER, needed - NUMBER, needed - 1] {
            let whole = Whole { call: case.call.clone(), totes: vec![STRANGE; size] };
            compare_returned(tally, &case.name, &whole, &case.call, case.returned);
        }
    }
}

/// With what is returned stated apart from the second solver's own checks.
fn compare_returned(tally: &mut Tally, name: &str, whole: &Whole, solved: &Call, returned: u64) {
    let own = whole.refusal().map_or(0, Refusal::returned);
    tally.judge(name, Some(&whole.call), is(own, returned));
    tally.compare_whole(name, whole, solved);
}

/// For every number of pairs, joined or not.
fn compare_sizes(tally: &mut Tally, random: &mut Random) {
    for (k, q) in (1..=32).zip(PRECISIONS.cycle()) {
        for floor in [floors::floor, floors::unjoined] {
            let size = Size { nodes: 8, arcs: 14, commodities: k };
            let (shape, capacities) = (random.pick(&SHAPES), random.pick(&CAPACITIES));
            let net = of_any_kind(floor(shape, size, capacities, random), random);
            let call = floors::lent(&net, q, random);
            let (_, solved) = call.answered(fast::solve);
            for (size, returned) in sizes(needed(&call)) {
                let whole = Whole { call: call.clone(), totes: random.bytes(size) };
                compare_returned(tally, &format!("{k} pairs"), &whole, &solved, returned);
            }
        }
    }
}

/// Each with what is returned.
fn sizes(needed: usize) -> impl Iterator<Item = (usize, u64)> {
    let short = [needed, needed - NUMBER, NUMBER + 1, NUMBER, NUMBER - 1, 1];
    let short = short.map(|less| (needed - less, 5000));
    let enough = [0, 1, 3, NUMBER - 1, NUMBER, NUMBER + 1, 5 * NUMBER, 6 * NUMBER - 1];
    short.into_iter().chain(enough.map(|more| (needed + more, 0)))
}

pub fn of_any_kind(net: Network, random: &mut Random) -> Network {
    let (stations, share) = (random.pick(&STATIONS), random.pick(&SHARES));
    marked(limited(net, stations, random), share, random)
}

/// Each wrong rule has to fill some table otherwise: else the floors show nothing about it.
fn compare_idle(tally: &mut Tally, random: &mut Random) {
    let mut otherwise = [0; WRONG.len()];
    for (i, q) in (0..IDLE).zip(PRECISIONS.cycle()) {
        let net = with_idle_pairs(random);
        let solved = compare_idle_pairs(tally, &format!("idle pairs {i}"), &net, q, random);
        let plan = Plan::read(&net, &solved);
        let told = plan.told(plan.carried());
        let seen = WRONG.map(|(_, rule)| u64::from(rule(&plan) != told));
        otherwise.iter_mut().zip(seen).for_each(|(sum, one)| *sum += one);
    }
    let each: Vec<String> =
        WRONG.iter().zip(otherwise).map(|((name, _), seen)| format!("{seen} by {name}")).collect();
    println!("of {IDLE} floors with idle pairs other totes: {}", each.join(", "));
    let all = otherwise.iter().all(|seen| *seen > 0);
    tally.judge("idle pairs", None, holds(all, "some wrong rule gives the same totes"));
}

/// Hands back what a solving call leaves.
fn compare_idle_pairs(
    tally: &mut Tally,
    name: &str,
    net: &Network,
    q: u64,
    random: &mut Random,
) -> Call {
    let call = floors::lent(net, q, random);
    let (_, solved) = call.answered(solver::solve);
    let more = random.pick(&MORE);
    let whole = Whole { totes: random.bytes(needed(&call) + more), call };
    let after = numbers(&tally.compare_whole(name, &whole, &solved).totes);
    let pairs = 0..net.commodities.len();
    let zeros = pairs.filter(|i| idle(net, *i)).all(|i| after[2 * i..][..2] == [0, 0]);
    tally.judge(name, Some(&whole.call), holds(zeros, "an idle pair carries something"));
    solved
}

/// A small floor, with some pairs more that are idle, anywhere among the others.
fn with_idle_pairs(random: &mut Random) -> Network {
    let net = floors::small(random);
    let mut net = of_any_kind(net, random);
    net.nodes += 1;
    for _ in 0..random.between(1, 3) {
        let Commodity { source, sink } = random.pick(&net.commodities);
        let alone = net.nodes;
        let ends = [(source, sink), (alone, sink), (source, alone)];
        let (source, sink) = random.pick(&ends);
        let at = random.index(net.commodities.len() + 1);
        if source != sink {
            net.commodities.insert(at, Commodity { source, sink });
        }
    }
    net
}

/// Whether a pair never has its turn: it ends at the last station, which no belt touches,
/// or it is the same as one before it.
fn idle(net: &Network, i: usize) -> bool {
    let pair = &net.commodities[i];
    [pair.source, pair.sink].contains(&net.nodes) || net.commodities[..i].contains(pair)
}

/// What whole totes are told from.
struct Plan<'a> {
    net: &'a Network,
    flow: Vec<i64>,
    capacity: u64,
    load: u64,
}

type Rule = fn(&Plan) -> Vec<u64>;

const WRONG: [(&str, Rule); 8] = [
    ("rounding to the nearest", |plan| plan.each(|x, c, y| [(2 * x * c + y) / (2 * y), x * c % y])),
    ("remainders before the scale", |plan| plan.each(|x, c, y| [x * c / y, x % y])),
    ("rounding before the scale", |plan| plan.each(|x, c, y| [x / y * c, x * c % y])),
    ("remainder before whole", |plan| plan.each(|x, c, y| [x * c % y, x * c / y])),
    ("pairs in opposite order", |plan| plan.told(plan.carried().into_iter().rev().collect())),
    ("all pairs together", |plan| plan.told(plan.all_together())),
    ("belts with the source for a tail alone", |plan| plan.told(plan.from_tails())),
    ("belts rounded one by one", |plan| plan.belt_by_belt()),
];

impl Plan<'_> {
    fn read<'a>(net: &'a Network, solved: &Call) -> Plan<'a> {
        let [capacity, load] = [1, 2].map(|place| get(&solved.answer, place));
        Plan { net, flow: amounts(solved), capacity, load }
    }

    fn carried(&self) -> Vec<u64> {
        carried(self.net, &self.flow)
    }

    fn told(&self, carried: Vec<u64>) -> Vec<u64> {
        whole_totes(&carried, self.capacity, self.load)
    }

    fn each(&self, told: fn(u64, u64, u64) -> [u64; 2]) -> Vec<u64> {
        self.carried().into_iter().flat_map(|x| told(x, self.capacity, self.load)).collect()
    }

    fn all_together(&self) -> Vec<u64> {
        let carried = self.carried();
        vec![carried.iter().sum(); carried.len()]
    }

    fn from_tails(&self) -> Vec<u64> {
        let rows = self.at_sources(|arc, source| arc.tail == source);
        rows.map(|amounts| amounts.iter().sum()).collect()
    }

    fn belt_by_belt(&self) -> Vec<u64> {
        let rows = self.at_sources(|arc, source| [arc.tail, arc.head].contains(&source));
        let summed = |told: Vec<u64>| [0, 1].map(|at| told.iter().skip(at).step_by(2).sum());
        rows.flat_map(|amounts| summed(self.told(amounts))).collect::<Vec<u64>>()
    }

    /// For each pair the amounts on some belts at its source, by size: they all leave it.
    fn at_sources(&self, some: fn(&Arc, u64) -> bool) -> impl Iterator<Item = Vec<u64>> + '_ {
        let (arcs, m) = (&self.net.arcs, self.net.arcs.len());
        self.net.commodities.iter().zip(self.flow.chunks(m)).map(move |(pair, row)| {
            let belts = arcs.iter().zip(row).filter(|(arc, _)| some(arc, pair.source));
            belts.map(|(_, amount)| amount.unsigned_abs()).collect()
        })
    }
}
