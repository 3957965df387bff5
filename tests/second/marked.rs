//! The comparison on floors with no, some and all belts reversible (request C-12).

use crate::call::Call;
use crate::floors::{self, CAPACITIES, PRECISIONS};
use crate::network::{Network, Solution};
use crate::random::Random;
use crate::reversible::{self, Share, MARKS, SHARES};
use crate::shapes::{FULL_SIZE, SHAPES};
use crate::tally::{holds, Tally};
use crate::wrong::{self, Told};
use crate::{agree, compare_forms, compare_large, timed};
use crate::{fast, literal, solver, ties};

/// So many floors with ties, such whose draws cancel, small and medium ones, and rounds
/// of full-size ones.
pub struct Amounts {
    pub ties: u64,
    pub cancelling: u64,
    pub small: u64,
    pub medium: u64,
    pub full: usize,
}

/// Each program that takes reversible belts wrongly has to come out otherwise on some
/// of the small floors. Up to the precision `plain` the plain form is tried on the
/// full-size ones.
pub fn compare(tally: &mut Tally, amounts: &Amounts, plain: u64, seed: u64) {
    let mut told = Told::new(wrong::REVERSIBLE);
    timed("reversible belts, stated", tally, |tally| compare_stated(tally, &mut told));
    timed("reversible belts, ties", tally, |tally| {
        compare_ties(tally, amounts.ties, &mut Random::new(seed))
    });
    timed("reversible belts, draws that cancel", tally, |tally| {
        compare_cancelling(tally, amounts.cancelling, &mut told, &mut Random::new(seed + 1))
    });
    timed("reversible belts, small", tally, |tally| {
        compare_small(tally, amounts.small, &mut told, &mut Random::new(seed + 2))
    });
    timed("reversible belts, medium", tally, |tally| {
        compare_medium(tally, amounts.medium, &mut Random::new(seed + 3))
    });
    timed("reversible belts, full-size", tally, |tally| {
        compare_full(tally, amounts.full, plain, &mut Random::new(seed + 4))
    });
    let all = holds(told.show(), "some wrong program gives the same answers");
    tally.judge("reversible belts", None, all);
}

/// Each with every mark, which all mean the same.
fn compare_stated(tally: &mut Tally, told: &mut Told) {
    for stated in reversible::stated() {
        let (name, q) = (stated.name, stated.q);
        let plain = solver::solve_by(literal::as_searched, &stated.net, q);
        let (m, e) = (stated.net.arcs.len(), stated.belt - 1);
        let amounts: Vec<i64> = plain.flow.iter().skip(e).step_by(m).copied().collect();
        let figures = plain.loads[e] == stated.drawn && amounts == stated.amounts;
        let found = format!("drawn {}, left {amounts:?}", plain.loads[e]);
        tally.judge(name, None, holds(figures, &found));
        tally.judge(name, None, look(told, &stated.net, q, &plain));
        for mark in MARKS {
            let mut net = stated.net.clone();
            net.arcs.iter_mut().filter(|arc| arc.mark != 0).for_each(|arc| arc.mark = mark);
            let call = Call::new(&net, q);
            tally.judge(name, Some(&call), agree(&plain, &fast::solve(&net, q)));
            tally.compare_with(name, &call, (0, call.written(&plain)));
        }
    }
}

/// The right program among the wrong ones is one more form of the second solver.
pub fn look(told: &mut Told, net: &Network, q: u64, plain: &Solution) -> Result<(), String> {
    holds(told.look(net, q, plain), "draws kept by direction give another answer")
}

fn compare_ties(tally: &mut Tally, amount: u64, random: &mut Random) {
    for ((i, q), share) in (0..amount).zip(PRECISIONS.cycle()).zip(SHARES.into_iter().cycle()) {
        let net = reversible::marked(ties::at_random(random), share, random);
        let (name, call) = (format!("ties, {share:?}, {i}"), floors::lent(&net, q, random));
        let plain = solver::solve_by(literal::as_searched, &net, q);
        tally.judge(&name, Some(&call), agree(&plain, &fast::solve(&net, q)));
        tally.compare_with(&name, &call, (0, call.written(&plain)));
    }
}

/// Of floors tried at random those are compared on which draws of the pair cancel.
fn compare_cancelling(tally: &mut Tally, amount: u64, told: &mut Told, random: &mut Random) {
    let (mut found, mut tried) = (0, 0);
    while found < amount && tried < 20 * amount {
        let (net, q) = (reversible::one_pair(random), random.between(4, 16));
        tried += 1;
        if reversible::cancels(&net, &fast::solve(&net, q)) {
            found += 1;
            let name = format!("draws that cancel {found}");
            let plain = compare_forms(tally, &name, &net, q, random);
            tally.judge(&name, None, look(told, &net, q, &plain));
        }
    }
    println!("draws cancel on {found} of {tried} floors");
    tally.judge("draws that cancel", None, holds(found == amount, "too few"));
}

/// In every second floor each pair has one beside it that goes the opposite way.
fn compare_small(tally: &mut Tally, amount: u64, told: &mut Told, random: &mut Random) {
    for ((i, q), share) in (0..amount).zip(PRECISIONS.cycle()).zip(SHARES.into_iter().cycle()) {
        let mut net = reversible::marked(floors::small(random), share, random);
        if random.one_in(2) {
            net = reversible::both_ways(net);
        }
        let name = format!("small floor {i}, {share:?} reversible");
        let plain = compare_forms(tally, &name, &net, q, random);
        if share != Share::None && random.one_in(8) {
            tally.judge(&name, None, look(told, &net, q, &plain));
        }
    }
}

fn compare_medium(tally: &mut Tally, amount: u64, random: &mut Random) {
    for (i, q) in (0..amount).zip(PRECISIONS.cycle()) {
        let (net, share) = (floors::medium(random), random.pick(&SHARES[1..]));
        let net = reversible::marked(net, share, random);
        let name = format!("medium floor {i}, {share:?} reversible");
        compare_large(tally, &name, &net, q, 4, random);
    }
}

fn compare_full(tally: &mut Tally, rounds: usize, plain: u64, random: &mut Random) {
    let all = SHAPES.into_iter().cycle().zip(PRECISIONS.cycle());
    for (i, (shape, q)) in all.take(rounds * SHAPES.len()).enumerate() {
        let share = [Share::All, Share::Some][i / SHAPES.len() % 2];
        let capacities = random.pick(&CAPACITIES);
        let net = floors::floor(shape, FULL_SIZE, capacities, random);
        let net = reversible::marked(net, share, random);
        let name = format!("{shape:?}, {capacities:?}, {share:?} reversible, q {q}");
        compare_large(tally, &name, &net, q, plain, random);
    }
}
