//! The comparison on floors with no, some and all stations limited (request C-17), and
//! belts reversible or not.

use crate::call::{Call, NUMBER};
use crate::damage::set_limits;
use crate::floors::{self, CAPACITIES, PRECISIONS};
use crate::limits::{self, Stations, STATIONS};
use crate::marked::look;
use crate::network::{network, Network};
use crate::random::Random;
use crate::rare::{self, Tied};
use crate::reversible::{self, SHARES};
use crate::shapes::{FULL_SIZE, SHAPES};
use crate::tally::{holds, Tally};
use crate::wrong::{self, Told};
use crate::{agree, compare_forms, compare_large, compare_runs, timed};
use crate::{fast, figures, literal, method, outside, solver, ties};

/// So many floors with ties, such whose draws cancel at a limited station, small and
/// medium ones, and rounds of full-size ones.
pub struct Amounts {
    pub ties: u64,
    pub cancelling: u64,
    pub small: u64,
    pub medium: u64,
    pub full: usize,
}

/// Each program that takes limits wrongly has to come out otherwise on some of the
/// floors. Up to the precision `plain` the plain form is tried on the full-size ones.
pub fn compare(tally: &mut Tally, amounts: &Amounts, plain: u64, seed: u64) {
    let mut told = Told::new(wrong::LIMITED);
    timed("limits, stated", tally, |tally| compare_stated(tally, &mut told));
    timed("limits, what is read of them", tally, compare_read);
    timed("limits, ties", tally, |tally| {
        compare_ties(tally, amounts.ties, &mut told, &mut Random::new(seed))
    });
    timed("limits, draws that cancel", tally, |tally| {
        compare_cancelling(tally, amounts.cancelling, &mut told, &mut Random::new(seed + 1))
    });
    timed("limits, small", tally, |tally| {
        compare_small(tally, amounts.small, &mut told, &mut Random::new(seed + 2))
    });
    timed("limits, medium", tally, |tally| {
        compare_medium(tally, amounts.medium, &mut Random::new(seed + 3))
    });
    timed("limits, full-size", tally, |tally| {
        compare_full(tally, amounts.full, plain, &mut Random::new(seed + 4))
    });
    let all = holds(told.show(), "some wrong program gives the same answers");
    tally.judge("limits", None, all);
}

fn compare_stated(tally: &mut Tally, told: &mut Told) {
    compare_runs(tally, figures::by_hand());
    let (name, net) = ("a station that is the fullest, where draws cancel", limits::cancelling());
    let plain = solver::solve_by(literal::as_searched, &net, 4);
    let station = net.resource(2).expect("station 2 is limited");
    let figures = (plain.loads[station], outside::taken(&net, &plain.flow, 2), plain.answer[2]);
    tally.judge(name, None, holds(figures == (144, 142, 144), &format!("has {figures:?}")));
    compare_told(tally, name, &net, 4, told, &mut Random::new(4));
    let (name, net) = ("two belts and a station, or three belts", limits::as_a_belt());
    let first = solver::choose(&net, &method::start(&net.capacities()));
    let first = holds(first.is_some_and(|first| first.path == [3, 4]), "not the two belts");
    tally.judge(name, None, first);
    compare_told(tally, name, &net, 4, told, &mut Random::new(4));
    for tied in rare::with_stations() {
        tally.judge(tied.name, None, holds(is_tied(&tied), "not the first of two as full"));
        compare_told(tally, tied.name, &tied.net, tied.q, told, &mut Random::new(tied.q));
    }
}

fn is_tied(tied: &Tied) -> bool {
    let (capacities, plain) = (tied.net.capacities(), solver::solve(&tied.net, tied.q));
    let [[c, y], [d, z]] = [tied.first, tied.second].map(|r| [capacities[r], plain.loads[r]]);
    [c, y] == plain.answer[1..3] && y * d == z * c && c != d
}

fn compare_told(
    tally: &mut Tally,
    name: &str,
    net: &Network,
    q: u64,
    told: &mut Told,
    random: &mut Random,
) {
    let plain = compare_forms(tally, name, net, q, random);
    tally.judge(name, None, look(told, net, q, &plain));
}

/// Slices that mean the same as the first of them, for three stations: what is absent is
/// zero, and what no station is there for is not read.
const ALIKE: [&[&[u64]]; 3] = [
    &[&[], &[0], &[0; 3], &[0, 0, 0, 1], &[0, 0, 0, 1001, u64::MAX], &[0; 999]],
    &[&[0, 3], &[0, 3, 0], &[0, 3, 0, 1], &[0, 3, 0, 0, 1001, u64::MAX]],
    &[&[4, 1, 1000], &[4, 1, 1000, 1], &[4, 1, 1000, u64::MAX, 1001, 1]],
];

/// A last number that is not whole is not read either.
fn compare_read(tally: &mut Tally) {
    let floor = network(3, &[(1, 2, 5), (2, 3, 7)], &[(1, 3), (2, 3)]);
    for slices in ALIKE {
        let first = Call::new(&floor.clone().limited(slices[0]), 5);
        let (returned, after) = first.answered(solver::solve);
        for (numbers, more) in slices.iter().flat_map(|slice| [slice; NUMBER].into_iter().zip(0..))
        {
            let mut call = first.clone();
            set_limits(&mut call, numbers);
            call.limits.resize(call.limits.len() + more, 0xa5);
            let wanted = Call { limits: call.limits.clone(), ..after.clone() };
            let name = format!("limits {numbers:?} and {more} bytes");
            tally.compare_with(&name, &call, (returned, wanted));
        }
    }
}

/// Some by limits as long as belts, so that a station could be taken for one.
fn compare_ties(tally: &mut Tally, amount: u64, told: &mut Told, random: &mut Random) {
    let kinds = STATIONS[1..].iter().cycle();
    for ((i, q), stations) in (0..amount).zip(PRECISIONS.cycle()).zip(kinds) {
        let (share, net) = (random.pick(&SHARES), ties::at_random(random));
        let net = limits::limited_evenly(net, *stations, random);
        let net = reversible::marked(net, share, random);
        let (name, call) = (format!("ties, {stations:?}, {i}"), floors::lent(&net, q, random));
        let plain = solver::solve_by(literal::as_searched, &net, q);
        tally.judge(&name, Some(&call), agree(&plain, &fast::solve(&net, q)));
        tally.compare_with(&name, &call, (0, call.written(&plain)));
        if random.one_in(4) {
            tally.judge(&name, None, look(told, &net, q, &plain));
        }
    }
}

/// Of floors tried at random those are compared on which the pair's draws cancel at a
/// limited station.
fn compare_cancelling(tally: &mut Tally, amount: u64, told: &mut Told, random: &mut Random) {
    let (mut found, mut tried) = (0, 0);
    while found < amount && tried < 40 * amount {
        let (net, q) = (limits::one_pair(random), random.between(4, 16));
        tried += 1;
        if cancels(&net, q) {
            found += 1;
            let name = format!("draws that cancel at a station {found}");
            compare_told(tally, &name, &net, q, told, random);
        }
    }
    println!("draws cancel at a limited station on {found} of {tried} floors");
    tally.judge("draws that cancel at a station", None, holds(found == amount, "too few"));
}

fn cancels(net: &Network, q: u64) -> bool {
    let solution = fast::solve(net, q);
    let mut stations = net.limited_nodes().zip(&solution.loads[net.arcs.len()..]);
    stations.any(|(node, load)| outside::taken(net, &solution.flow, node) < *load)
}

fn compare_small(tally: &mut Tally, amount: u64, told: &mut Told, random: &mut Random) {
    let kinds = STATIONS.into_iter().cycle();
    for ((i, q), stations) in (0..amount).zip(PRECISIONS.cycle()).zip(kinds) {
        let (share, mut net) = (random.pick(&SHARES), floors::small(random));
        if random.one_in(4) {
            net = reversible::both_ways(net);
        }
        let net = reversible::marked(limits::limited(net, stations, random), share, random);
        let name = format!("small floor {i}, limits {stations:?}, {share:?} reversible");
        let plain = compare_forms(tally, &name, &net, q, random);
        if stations != Stations::None && random.one_in(8) {
            tally.judge(&name, None, look(told, &net, q, &plain));
        }
    }
}

fn compare_medium(tally: &mut Tally, amount: u64, random: &mut Random) {
    for (i, q) in (0..amount).zip(PRECISIONS.cycle()) {
        let (net, stations) = (floors::medium(random), random.pick(&STATIONS[1..]));
        let (net, share) = (limits::limited(net, stations, random), random.pick(&SHARES));
        let net = reversible::marked(net, share, random);
        let name = format!("medium floor {i}, limits {stations:?}, {share:?} reversible");
        compare_large(tally, &name, &net, q, 4, random);
    }
}

/// Belts and limits are 256 together.
fn compare_full(tally: &mut Tally, rounds: usize, plain: u64, random: &mut Random) {
    let all = SHAPES.into_iter().cycle().zip(PRECISIONS.cycle());
    for (i, (shape, q)) in all.take(rounds * SHAPES.len()).enumerate() {
        let share = SHARES[i / SHAPES.len() % SHARES.len()];
        let (size, capacities) = (limits::with_limits(FULL_SIZE), random.pick(&CAPACITIES));
        let net = floors::floor(shape, size, capacities, random);
        let net = reversible::marked(limits::limited(net, Stations::All, random), share, random);
        let name = format!("{shape:?}, {capacities:?}, limited, {share:?} reversible, q {q}");
        compare_large(tally, &name, &net, q, plain, random);
    }
}
