//! The method with one slip at a time (document 01, "Where the method slips"),
//! each on a small floor beside the right method. A row says what both give and
//! which promises of the record `Guarantee` the slip breaks; the line below it
//! has the fact of the proof that fails. docs/GUARANTEE.md quotes both. Exits
//! with 1 if a slip breaks anything else than is stated here, or the right
//! method breaks anything. Named a DIMACS file and a precision, it tries every
//! slip on that floor in place of these, and states nothing of them.

// Of the shared modules not everything is needed here.
#![allow(dead_code)]

mod call;
mod dimacs;
mod method;
mod network;
mod rounded;
mod shares;
mod slip_floors;
mod slipped;
mod solver;

use method::{fraction_below, SCALE};
use network::Network;
use shares::{reaches, shares};
use slip_floors::{merge, one_belt, one_feeder, two_belts, two_feeders};
use slipped::{run, starts, Run, Slip};
use std::process::ExitCode;

struct Case {
    name: &'static str,
    slip: Slip,
    net: Network,
    q: u64,
    breaks: &'static [&'static str],
    fact: fn(&Run) -> Fact,
}

/// The promises of V over B.
const SHARES: [&str; 3] = ["near", "closer", "nearer"];

/// A fact of the proof at the end of a run, with its figures.
struct Fact {
    holds: bool,
    says: String,
}

fn main() -> ExitCode {
    let words: Vec<String> = std::env::args().skip(1).collect();
    let own = match &words[..] {
        [] => None,
        [file, q] => floor(file).zip(q.parse().ok().filter(|q| (4..=16).contains(q))),
        _ => None,
    };
    if own.is_none() && !words.is_empty() {
        eprintln!("slips: name a DIMACS file with a joined floor and a precision from 4 to 16");
        return ExitCode::from(2);
    }
    println!("{:<28}{:>30}  {:>30}", "", "right method", "with the slip");
    let heads = ["total V", "bound B", "choices", "total V", "bound B", "choices"];
    show_row(["slip", "m", "q"], heads, "breaks");
    match own {
        Some((net, q)) => try_all(&net, q),
        None => judge_all(),
    }
}

/// What the solver would take: an accepted floor with its pair joined.
fn floor(file: &str) -> Option<Network> {
    let net = dimacs::read(&std::fs::read(file).ok()?).ok()?;
    let taken = call::Call::new(&net, 4).refusal().is_none();
    (taken && solver::choose(&net, &starts(&net, Slip::None)).is_some()).then_some(net)
}

fn try_all(net: &Network, q: u64) -> ExitCode {
    let right = run(net, q, Slip::None);
    let mut tried = Vec::new();
    for Case { name, slip, .. } in cases() {
        if !tried.contains(&slip) {
            let slipped = run(net, q, slip);
            show(name, &right, &slipped, &broken(&slipped));
            tried.push(slip);
        }
    }
    ExitCode::SUCCESS
}

fn judge_all() -> ExitCode {
    let judged: Vec<bool> = cases().iter().map(judge).collect();
    let otherwise = judged.iter().filter(|as_stated| !*as_stated).count();
    println!("slips: {} tried, {otherwise} not as stated", judged.len());
    ExitCode::from(u8::from(otherwise > 0))
}

fn cases() -> Vec<Case> {
    let case = |name, slip, net, q, breaks, fact| Case { name, slip, net, q, breaks, fact };
    let over: [&[&str]; 2] = [&["keeps"], &["keeps", "V above B"]];
    vec![
        case("start rounded down", Slip::StartDown, one_belt(3), 4, &[], scaled),
        case("growth rounded down", Slip::GrowthDown, two_feeders(), 16, &SHARES, lower),
        case("halving rounded down", Slip::HalvingDown, one_feeder(), 16, &SHARES, lower),
        case("divided by T", Slip::ScaleByMark, merge(), 4, over[0], within),
        case("divided by T", Slip::ScaleByMark, merge(), 16, over[1], within),
        case("last bound", Slip::LastBound, two_belts(), 4, &[], best),
        case("L = 0", Slip::LevelZero, one_belt(5), 4, &["count"], below),
    ]
}

/// Whether the slip breaks what is stated, and the right method nothing.
fn judge(case: &Case) -> bool {
    let right = run(&case.net, case.q, Slip::None);
    let slipped = run(&case.net, case.q, case.slip);
    let (breaks, fact) = (broken(&slipped), (case.fact)(&slipped));
    show(case.name, &right, &slipped, &breaks);
    println!("    {}", fact.says);
    let sound = is_solved(&right) && broken(&right).is_empty() && (case.fact)(&right).holds;
    sound && breaks == case.breaks && !fact.holds
}

fn show(name: &str, right: &Run, slipped: &Run, breaks: &[&str]) {
    let sizes = [name, &right.net.arcs.len().to_string(), &right.q.to_string()];
    let [[v, b, n], [w, c, o]] = [figures(right), figures(slipped)];
    let named = if breaks.is_empty() { "none".into() } else { breaks.join(", ") };
    show_row(sizes, [&v, &b, &n, &w, &c, &o], &named);
}

fn show_row([slip, m, q]: [&str; 3], [v, b, n, w, c, o]: [&str; 6], breaks: &str) {
    print!("{slip:<20} {m:>3} {q:>3} {v:>10} {b:>10} {n:>8}");
    println!("  {w:>10} {c:>10} {o:>8}  {breaks}");
}

fn figures(run: &Run) -> [String; 3] {
    [run.total().down(4), run.bound().fraction().up(4), run.iterations.to_string()]
}

/// The run without a slip is the second solver's.
fn is_solved(run: &Run) -> bool {
    let [drawn, capacity, load, weight, alpha, iterations, which] =
        solver::solve(run.net, run.q).answer;
    let least = run.least;
    (drawn, (capacity, load), iterations) == (run.drawn, run.scale(), run.iterations)
        && (weight, alpha, which) == (least.weight, least.alpha, least.iteration)
}

/// The promises that the run breaks, by their names in `Guarantee`. A total
/// above the bound breaks `upper` if the plan keeps the capacities.
fn broken(run: &Run) -> Vec<&'static str> {
    let wide = u128::from;
    let ((upper, lower), bound) = (run.scale(), run.bound());
    let m = run.net.arcs.len() as u64;
    let v = wide(run.drawn) * wide(upper) * wide(bound.alpha);
    let b = wide(bound.weight) * wide(lower);
    let mut loads = run.net.arcs.iter().zip(&run.loads);
    let over = loads.any(|(arc, y)| wide(*y) * wide(upper) > wide(arc.capacity) * wide(lower));
    let near = shares(run.q).map(|(name, share)| (name, !reaches(v, share, b)));
    let first = [("keeps", over), ("V above B", v > b)];
    let promises = first.into_iter().chain(near).chain([("count", run.iterations > m * run.mark)]);
    promises.filter(|(_, broken)| *broken).map(|(name, _)| name).collect()
}

/// At the start capacity times length is the scale or more.
fn scaled(run: &Run) -> Fact {
    let (capacity, start) = (run.net.arcs[0].capacity, starts(run.net, run.slip)[0]);
    let says = format!(
        "scaled: belt 1 starts at c l = {capacity} x {start} = {}, which must be {SCALE} or more",
        capacity * start
    );
    Fact { holds: capacity * start >= SCALE, says }
}

/// The lower side at the fullest belt, in logarithms; the slips miss by far more
/// than these are rounded.
fn lower(run: &Run) -> Fact {
    let b = run.fullest();
    let (capacity, load, length) = (run.net.arcs[b].capacity, run.loads[b], run.lengths[b]);
    let ratio = load as f64 / capacity as f64;
    let asked = 36.0 + ratio * (1.0 + 1.0 / run.q as f64).log2();
    let shown = f64::from(run.halvings) + (capacity as f64 * length as f64).log2();
    let says = format!(
        "lower: belt {} of {capacity}, load {load}, asks for c l 2^H of 2^{asked:.1} or more; with \
         l = {length} and H = {} it is {}",
        b + 1,
        run.halvings,
        if length == 0 { "0".into() } else { format!("2^{shown:.1}") }
    );
    Fact { holds: shown > asked - 1e-6, says }
}

/// After the scale the fullest belt carries no more than its capacity.
fn within(run: &Run) -> Fact {
    let (b, (upper, lower)) = (run.fullest(), run.scale());
    let (capacity, load) = (run.net.arcs[b].capacity, run.loads[b]);
    let says = format!(
        "keeps: belt {} of {capacity} has load {load} and T = {}, so it carries {load} / {}",
        b + 1,
        run.mark,
        lower / upper
    );
    Fact { holds: load * upper <= capacity * lower, says }
}

/// No choice met a smaller fraction than the bound.
fn best(run: &Run) -> Fact {
    let (bound, least) = (run.bound(), run.least);
    let says = format!(
        "is-tightest: choice {} met {} / {} = {}, choice {} gives {} / {} = {}",
        least.iteration,
        least.weight,
        least.alpha,
        least.fraction().up(4),
        bound.iteration,
        bound.weight,
        bound.alpha,
        bound.fraction().up(4)
    );
    let smaller = fraction_below(least.weight, least.alpha, bound.weight, bound.alpha);
    Fact { holds: !smaller, says }
}

/// Before the first choice every load is below the mark.
fn below(run: &Run) -> Fact {
    let says = format!(
        "reached-start: before any choice load 0 must be below T c = {} x {}; {} choice, m T = {}",
        run.mark,
        run.net.arcs[0].capacity,
        run.iterations,
        run.mark * run.net.arcs.len() as u64
    );
    Fact { holds: 0 < run.mark * run.net.arcs[0].capacity, says }
}
