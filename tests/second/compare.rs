//! Compares the static library with the second solver, byte for byte, on sound
//! and damaged calls; exits with 1 on any difference. `--quick` takes a few
//! hundred floors, `--seed N` other ones. `--forms` leaves the library out and
//! compares the forms of the second solver with each other.

mod call;
mod damage;
mod edges;
mod fast;
mod figures;
mod floors;
mod guarded;
mod joined;
mod library;
mod limited;
mod limits;
mod literal;
mod marked;
mod method;
mod network;
mod offices;
mod outside;
mod parts;
mod programs;
mod random;
mod rare;
mod reversible;
mod search;
mod shapes;
mod shares;
mod site;
mod sites;
mod solver;
mod tally;
mod ties;
mod totes;
mod whole;
mod wrong;

use call::{numbers, Call};
use floors::{Capacities, CAPACITIES, PRECISIONS};
use network::{Network, Solution};
use random::Random;
use shapes::{Shape, FULL_SIZE, SHAPES};
use std::process::ExitCode;
use std::time::Instant;
use tally::{holds, Tally};

/// How much is compared: every `levels`-th number of belts, so many damaged
/// floors, floors with ties, small and medium ones, rounds of full-size ones, and
/// up to which precision the plain form is tried on these, as it takes minutes at 16.
struct Amounts {
    levels: usize,
    damaged: u64,
    ties: u64,
    small: u64,
    medium: u64,
    full: usize,
    plain: u64,
    marked: marked::Amounts,
    limited: limited::Amounts,
    sites: sites::Amounts,
}

const WHOLE: Amounts = Amounts {
    levels: 1,
    damaged: 20_000,
    ties: 2_600,
    small: 39_000,
    medium: 130,
    full: 5,
    plain: 4,
    marked: marked::Amounts { ties: 650, cancelling: 650, small: 9_750, medium: 39, full: 2 },
    limited: limited::Amounts { ties: 650, cancelling: 325, small: 9_750, medium: 39, full: 3 },
    sites: sites::Amounts { damaged: 1, random: 5_200, full: 16 },
};
const QUICK: Amounts = Amounts {
    levels: 51,
    damaged: 1_000,
    ties: 260,
    small: 390,
    medium: 13,
    full: 0,
    plain: 0,
    marked: marked::Amounts { ties: 65, cancelling: 65, small: 390, medium: 13, full: 0 },
    limited: limited::Amounts { ties: 65, cancelling: 65, small: 390, medium: 13, full: 0 },
    sites: sites::Amounts { damaged: 29, random: 260, full: 0 },
};

struct Options {
    amounts: Amounts,
    seed: u64,
    forms: bool,
}

fn main() -> ExitCode {
    let Some(Options { amounts, seed, forms }) = options(std::env::args().skip(1)) else {
        eprintln!("compare: the options are --quick, --seed NUMBER and --forms");
        return ExitCode::from(2);
    };
    println!("seed {seed}");
    let mut tally = Tally::new(forms);
    timed("document 01's figures", &mut tally, compare_figures);
    timed("rare floors", &mut tally, compare_rare);
    timed("damaged calls, stated", &mut tally, compare_damaged);
    timed("damaged calls, random", &mut tally, |tally| {
        compare_random_damage(tally, amounts.damaged, &mut Random::new(seed))
    });
    timed("offices in turn", &mut tally, |tally| {
        offices::compare_turns(tally, &mut Random::new(seed + 16))
    });
    timed("load marks", &mut tally, |tally| compare_levels(tally, amounts.levels));
    timed("floors with ties", &mut tally, |tally| {
        compare_ties(tally, amounts.ties, &mut Random::new(seed + 4))
    });
    timed("small floors", &mut tally, |tally| {
        compare_small(tally, amounts.small, &mut Random::new(seed + 1))
    });
    timed("medium floors", &mut tally, |tally| {
        compare_medium(tally, amounts.medium, &mut Random::new(seed + 2))
    });
    timed("full-size floors", &mut tally, |tally| {
        compare_full(tally, &amounts, &mut Random::new(seed + 3))
    });
    marked::compare(&mut tally, &amounts.marked, amounts.plain, seed + 5);
    limited::compare(&mut tally, &amounts.limited, amounts.plain, seed + 10);
    totes::compare(&mut tally, seed + 17);
    sites::compare(&mut tally, &amounts.sites, seed + 19);
    tally.close()
}

fn options(mut words: impl Iterator<Item = String>) -> Option<Options> {
    let mut options = Options { amounts: WHOLE, seed: 1, forms: false };
    while let Some(word) = words.next() {
        match word.as_str() {
            "--quick" => options.amounts = QUICK,
            "--seed" => options.seed = words.next()?.parse().ok()?,
            "--forms" => options.forms = true,
            _ => return None,
        }
    }
    Some(options)
}

fn timed(name: &str, tally: &mut Tally, part: impl FnOnce(&mut Tally)) {
    let (before, started) = (*tally, Instant::now());
    part(tally);
    println!(
        "{name}: {} solved, {} unjoined, {} refused, {} of them for whole totes and {} for sites, \
         in {:.1} s",
        tally.solved - before.solved,
        tally.unjoined - before.unjoined,
        tally.refused - before.refused,
        tally.whole - before.whole,
        tally.sites - before.sites,
        started.elapsed().as_secs_f64()
    );
}

fn compare_figures(tally: &mut Tally) {
    for (name, found, printed) in figures::arithmetic() {
        tally.judge(name, None, is(found, printed));
    }
    compare_runs(tally, figures::runs());
}

fn compare_runs(tally: &mut Tally, runs: Vec<figures::Run>) {
    for run in runs {
        let after = tally.compare(run.name, &run.call, solver::solve);
        let mut answer = run.answer.iter().zip(numbers(&after.answer));
        let printed = answer.all(|(printed, found)| printed.is_none_or(|number| number == found));
        let as_printed = printed && numbers(&after.flow) == run.flow;
        tally.judge(run.name, Some(&run.call), holds(as_printed, "not as printed"));
    }
}

fn compare_rare(tally: &mut Tally) {
    for (name, net, q) in rare::floors() {
        tally.compare(name, &Call::new(&net, q), solver::solve);
    }
}

fn compare_damaged(tally: &mut Tally) {
    for case in damage::cases() {
        let (returned, _) = case.call.answered(solver::solve);
        tally.judge(&case.name, Some(&case.call), is(returned, case.returned));
        tally.compare(&case.name, &case.call, solver::solve);
    }
}

fn compare_random_damage(tally: &mut Tally, amount: u64, random: &mut Random) {
    for i in 0..amount {
        let call = damage::at_random(random);
        tally.compare(&format!("random damage {i}"), &call, solver::solve);
    }
}

/// One belt joins the only pair and the rest lie apart: the iterations are then
/// T itself, for every number of belts and limits and every precision.
fn compare_levels(tally: &mut Tally, every: usize) {
    for m in (1..=256).step_by(every) {
        for q in PRECISIONS {
            let (net, name) = (floors::one_joining(m, 1 + m), format!("load mark, m {m}, q {q}"));
            tally.compare(&name, &Call::new(&net, q), fast::solve);
            let net = reversible::one_joining(m, 1 + m);
            tally.compare(&format!("{name}, reversible"), &Call::new(&net, q), fast::solve);
            let net = limits::one_joining(m, 1 + m);
            tally.compare(&(name + ", limits among them"), &Call::new(&net, q), fast::solve);
        }
    }
}

/// Every form of the second solver has its say, at every choice. Each wrong rule for
/// ties has to come out otherwise on some floor: else they show nothing about it.
fn compare_ties(tally: &mut Tally, amount: u64, random: &mut Random) {
    let wrong = [literal::dictionary_first, literal::most_arcs, literal::fewest_of_all];
    let mut otherwise = [0; 3];
    let stated = ties::stated().into_iter().map(|(name, net, q)| (String::from(name), net, q));
    let generated = (0..amount)
        .zip(PRECISIONS.cycle())
        .map(|(i, q)| (format!("floor with ties {i}"), ties::at_random(random), q));
    let floors: Vec<(String, Network, u64)> = stated.chain(generated).collect();
    for (name, net, q) in &floors {
        let call = floors::lent(net, *q, random);
        let plain = solver::solve_by(literal::as_searched, net, *q);
        tally.judge(name, Some(&call), agree(&plain, &fast::solve(net, *q)));
        tally.compare_with(name, &call, (0, call.written(&plain)));
        for (rule, seen) in wrong.iter().zip(&mut otherwise) {
            *seen += u64::from(solver::solve_by(*rule, net, *q) != plain);
        }
    }
    let [dictionary, most, all] = otherwise;
    println!(
        "of {} floors with ties other answers: {dictionary} by dictionary order at once, {most} \
         by most belts, {all} by fewest belts between pairs too",
        floors.len()
    );
    let told = otherwise.iter().all(|seen| *seen > 0);
    tally.judge("floors with ties", None, holds(told, "some wrong rule gives the same answers"));
}

fn compare_small(tally: &mut Tally, amount: u64, random: &mut Random) {
    for (i, q) in (0..amount).zip(PRECISIONS.cycle()) {
        let net = floors::small(random);
        compare_forms(tally, &format!("small floor {i}"), &net, q, random);
    }
}

/// The fast form has its say too, and one time in eight that which lists every path.
fn compare_forms(
    tally: &mut Tally,
    name: &str,
    net: &Network,
    q: u64,
    random: &mut Random,
) -> Solution {
    let call = floors::lent(net, q, random);
    let plain = solver::solve(net, q);
    tally.judge(name, Some(&call), agree(&plain, &fast::solve(net, q)));
    if random.one_in(8) {
        let listed = solver::solve_by(literal::choose, net, q);
        tally.judge(name, Some(&call), agree(&plain, &listed));
    }
    tally.compare_with(name, &call, (0, call.written(&plain)));
    plain
}

fn compare_medium(tally: &mut Tally, amount: u64, random: &mut Random) {
    for (i, q) in (0..amount).zip(PRECISIONS.cycle()) {
        let net = floors::medium(random);
        let call = floors::lent(&net, q, random);
        tally.compare(&format!("medium floor {i}"), &call, fast::solve);
    }
}

fn compare_full(tally: &mut Tally, amounts: &Amounts, random: &mut Random) {
    let all = SHAPES.into_iter().cycle().zip(PRECISIONS.cycle());
    for (i, (shape, q)) in all.take(amounts.full * SHAPES.len()).enumerate() {
        let capacities = CAPACITIES[i / SHAPES.len() % CAPACITIES.len()];
        let net = floors::floor(shape, FULL_SIZE, capacities, random);
        let name = format!("{shape:?}, {capacities:?}, q {q}");
        compare_large(tally, &name, &net, q, amounts.plain, random);
    }
    let net = floors::unjoined(Shape::Dense, FULL_SIZE, Capacities::Mixed, random);
    let call = floors::lent(&net, 4, random);
    tally.compare("full-size and unjoined", &call, fast::solve);
}

/// The fast form speaks for the plain one where that would take minutes.
fn compare_large(
    tally: &mut Tally,
    name: &str,
    net: &Network,
    q: u64,
    plain: u64,
    random: &mut Random,
) {
    let call = floors::lent(net, q, random);
    tally.compare(name, &call, fast::solve);
    if q <= plain {
        let agreed = agree(&solver::solve(net, q), &fast::solve(net, q));
        tally.judge(name, Some(&call), agreed);
    }
}

/// On the second solver's own behalf: its number is the stated one.
fn is(found: u64, stated: u64) -> Result<(), String> {
    holds(found == stated, &format!("the second solver has {found}, not {stated}"))
}

fn agree(plain: &Solution, other: &Solution) -> Result<(), String> {
    holds(plain == other, "two forms of the second solver differ")
}
