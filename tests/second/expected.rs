//! What a C example should print, by the second solver: `expected floor` reads
//! examples/floor.c for its floor and writes what tests/floor.expected stores.

// Of the shared modules only a part is used here.
#![allow(dead_code)]

mod call;
mod contracts;
mod method;
mod network;
mod rounded;
mod site_page;
mod solver;

use network::{network, Arc, Network, Solution};
use rounded::Fraction;
use std::process::ExitCode;

/// Request C-20: how many offices there are, and the most that the count of one may be
/// when it runs.
const OFFICES: usize = 8;
const MOST: u64 = 1 << 63;

/// An example's floor, the precision at which it is solved, and its text, for what it
/// alone has.
struct Example {
    net: Network,
    q: u64,
    source: String,
}

fn main() -> ExitCode {
    let name = std::env::args().nth(1).unwrap_or_default();
    let print = match name.as_str() {
        "floor" => print_floor,
        "levels" => print_levels,
        "lift" => print_lift,
        "offices" => print_offices,
        "one_by_one" => print_one_by_one,
        "reversible" => print_reversible,
        "whole" => contracts::print,
        "site" => {
            site_page::print(&text(&name));
            return ExitCode::SUCCESS;
        }
        _ => {
            eprint!("expected: name one of floor, levels, lift, offices, one_by_one, ");
            eprintln!("reversible, site, whole");
            return ExitCode::from(2);
        }
    };
    print(&example(text(&name)));
    ExitCode::SUCCESS
}

fn text(name: &str) -> String {
    let file = std::fs::read_to_string(format!("examples/{name}.c"));
    file.expect("the example can be read")
}

fn example(source: String) -> Example {
    let [belts, pairs] = ["belt[BELTS]", "pair[PAIRS]"].map(|name| items(after(&source, name)));
    let [nodes, q] = ["STATIONS =", "PRECISION ="].map(|name| constant(&source, name));
    let ends: Vec<_> = pairs.iter().map(|pair| (pair[0], pair[1])).collect();
    let arcs = belts.iter().map(|belt| arc(belt)).collect();
    let limits = limits(nodes, &source);
    Example { net: Network { arcs, limits, ..network(nodes, &[], &ends) }, q, source }
}

/// Those of an example that has some, as station and limit.
fn limits(nodes: u64, source: &str) -> Vec<u64> {
    let mut limits = vec![0; nodes as usize];
    let table = source.split_once("limit[LIMITED]").map_or(vec![], |(_, text)| items(text));
    table.iter().for_each(|item| limits[item[0] as usize - 1] = item[1]);
    limits
}

/// A mark that is left out is zero, as in C.
fn arc(belt: &[u64]) -> Arc {
    let mark = belt.get(3).copied().unwrap_or(0);
    Arc { mark, ..Arc::one_way(belt[0], belt[1], belt[2]) }
}

fn after<'a>(source: &'a str, name: &str) -> &'a str {
    source.split_once(name).expect("the example has it").1
}

fn constant(source: &str, name: &str) -> u64 {
    numbers(after(source, name))[0]
}

/// What a table is set to, each item in braces.
fn items(text: &str) -> Vec<Vec<u64>> {
    let table = after(text, "=").split(';').next().unwrap_or_default();
    table.split('}').filter_map(|part| Some(numbers(part.rsplit_once('{')?.1))).collect()
}

/// The numbers up to a semicolon; the comments before it have none.
fn numbers(text: &str) -> Vec<u64> {
    let text = text.split(';').next().unwrap_or_default();
    text.split(|c: char| !c.is_ascii_digit()).filter_map(|word| word.parse().ok()).collect()
}

fn print_floor(Example { net, q, .. }: &Example) {
    let solution = solver::solve(net, *q);
    let m = net.arcs.len();
    println!("total {}", total(&solution).down(3));
    println!("bound {}", bound(&solution).up(3));
    for (pair, row) in net.commodities.iter().zip(solution.flow.chunks(m)) {
        let carried = scaled(&solution, carried(net, row, pair.source)).down(3);
        println!("pair {} to {} carries {carried}", pair.source, pair.sink);
    }
    for (arc, load) in net.arcs.iter().zip(loads(net, &solution)) {
        let load = load.down(3);
        println!("belt {} to {} carries {load} of {}", arc.tail, arc.head, arc.capacity);
    }
    let choices = solution.answer[5];
    println!("choices {choices}, so far {choices}");
}

fn print_lift(Example { net, q, .. }: &Example) {
    let unlimited = Network { limits: Vec::new(), ..net.clone() };
    for (what, floor) in [("without the limit", &unlimited), ("with it", net)] {
        let solution = solver::solve(floor, *q);
        print_total(&format!("{what}: "), &solution);
        print_stations("  ", net, &solution);
    }
}

fn print_levels(Example { net, q, .. }: &Example) {
    let solution = solver::solve(net, *q);
    print_total("", &solution);
    print_amounts(net, &solution);
    print_stations("", net, &solution);
}

fn print_stations(before: &str, net: &Network, solution: &Solution) {
    for node in net.limited_nodes() {
        let rows = solution.flow.chunks(net.arcs.len());
        let passes = scaled(solution, rows.map(|row| through(net, row, node)).sum()).down(3);
        let limit = net.limits[node as usize - 1];
        println!("{before}station {node} passes {passes} of {limit}");
    }
}

/// The larger of what a commodity brings into a node and what it takes out.
fn through(net: &Network, row: &[i64], node: u64) -> u64 {
    let (mut into, mut out) = (0, 0);
    for (arc, amount) in net.arcs.iter().zip(row) {
        let (from, to) = if *amount < 0 { (arc.head, arc.tail) } else { (arc.tail, arc.head) };
        out += if from == node { amount.unsigned_abs() } else { 0 };
        into += if to == node { amount.unsigned_abs() } else { 0 };
    }
    into.max(out)
}

fn print_offices(Example { net, q, source }: &Example) {
    let mut counts = [0; OFFICES];
    for run in items(after(source, "run[RUNS]")) {
        print_run(net, run[1], run[0], &mut counts);
    }
    let each: String = counts.iter().map(|count| format!(" {count}")).collect();
    println!("choices that offices 1 to {OFFICES} pay for:{each}");
    let [full, other] = ["FULL =", "OTHER ="].map(|name| constant(source, name));
    counts[full as usize - 1] = MOST + 1;
    for office in [full, other, OFFICES as u64 + 1] {
        print_run(net, *q, office, &mut counts);
    }
}

/// One run, with the count of its office raised, or why it is refused.
fn print_run(net: &Network, q: u64, office: u64, counts: &mut [u64]) {
    print!("office {office} at q = {q}: ");
    let own = counts.iter_mut().zip(1..).find(|(_, number)| *number == office);
    let Some((count, _)) = own else { return println!("refused: 16 (office), place 0") };
    if *count > MOST {
        return println!("refused: 11 (full count), place 0");
    }
    let solution = solver::solve(net, q);
    let choices = solution.answer[5];
    *count += choices;
    print!("total {}, bound {}, ", total(&solution).down(3), bound(&solution).up(3));
    println!("choices {choices}, so far {count}");
}

/// What is added up are thousandths, rounded down each.
fn print_one_by_one(Example { net, q, .. }: &Example) {
    let thousandths = |fraction: Fraction| fraction.parts(1000);
    let (mut sum, mut apart) = (0, vec![0; net.arcs.len()]);
    for pair in &net.commodities {
        let alone = Network { commodities: vec![*pair], ..net.clone() };
        let solution = solver::solve(&alone, *q);
        let total = total(&solution);
        println!("pair {} to {} alone {}", pair.source, pair.sink, total.down(3));
        sum += thousandths(total);
        let loads = loads(net, &solution).into_iter().map(thousandths);
        apart.iter_mut().zip(loads).for_each(|(load, more)| *load += more);
    }
    let added = |thousandths: u128| Fraction::new(thousandths, 1000_u64);
    let apart: Vec<_> = apart.into_iter().map(added).collect();
    print_loads("added up", added(sum), net, &apart);
    let together = solver::solve(net, *q);
    print_loads("in one call", total(&together), net, &loads(net, &together));
    println!("bound {}", bound(&together).up(3));
}

fn print_reversible(Example { net, q, .. }: &Example) {
    let opposite = solver::solve(&two_for_one(net), *q);
    print_total("as two opposite belts: ", &opposite);
    let solution = solver::solve(net, *q);
    print_total("as one reversible belt: ", &solution);
    print_amounts(net, &solution);
}

/// Each belt's load, and of each pair what it sends there, below zero from head to tail.
fn print_amounts(net: &Network, solution: &Solution) {
    let rows: Vec<_> = solution.flow.chunks(net.arcs.len()).collect();
    for (e, (arc, load)) in net.arcs.iter().zip(loads(net, solution)).enumerate() {
        let load = load.down(3);
        print!("belt {} to {} carries {load} of {}:", arc.tail, arc.head, arc.capacity);
        let amounts = rows.iter().zip(1..).map(|(row, pair)| {
            let size = scaled(solution, row[e].unsigned_abs());
            let sign = if row[e] < 0 && size.parts(1000) > 0 { "-" } else { "" };
            format!(" pair {pair} {sign}{}", size.down(3))
        });
        println!("{}", amounts.collect::<Vec<_>>().join(","));
    }
}

/// Two opposite belts for each reversible one, the second behind the others.
fn two_for_one(net: &Network) -> Network {
    let one_way = |arc: &Arc| Arc { mark: 0, ..*arc };
    let back = |arc: &Arc| Arc::one_way(arc.head, arc.tail, arc.capacity);
    let reversible = net.arcs.iter().filter(|arc| arc.reversible());
    let arcs = net.arcs.iter().map(one_way).chain(reversible.map(back)).collect();
    Network { arcs, ..net.clone() }
}

fn print_total(what: &str, solution: &Solution) {
    println!("{what}total {}, bound {}", total(solution).down(3), bound(solution).up(3));
}

fn print_loads(what: &str, total: Fraction, net: &Network, loads: &[Fraction]) {
    println!("{what} {}", total.down(3));
    for (arc, load) in net.arcs.iter().zip(loads) {
        println!("  belt {} to {}: {} of {}", arc.tail, arc.head, load.down(3), arc.capacity);
    }
}

/// What leaves the source less what enters it: never below zero, as no path comes back
/// to its source.
fn carried(net: &Network, row: &[i64], source: u64) -> u64 {
    let out = |arc: &Arc| i64::from(arc.tail == source) - i64::from(arc.head == source);
    let sum: i64 = net.arcs.iter().zip(row).map(|(arc, amount)| out(arc) * amount).sum();
    sum.unsigned_abs()
}

fn scaled(solution: &Solution, amount: u64) -> Fraction {
    let [_, capacity, load, ..] = solution.answer;
    Fraction::new(u128::from(amount) * u128::from(capacity), load)
}

fn total(solution: &Solution) -> Fraction {
    scaled(solution, solution.answer[0])
}

fn bound(solution: &Solution) -> Fraction {
    Fraction::new(solution.answer[3], solution.answer[4])
}

/// What each arc carries of all commodities in both directions, scaled.
fn loads(net: &Network, solution: &Solution) -> Vec<Fraction> {
    let m = net.arcs.len();
    let amounts = |e| solution.flow.iter().skip(e).step_by(m);
    let load = |e| amounts(e).map(|amount| amount.unsigned_abs()).sum();
    (0..m).map(|e| scaled(solution, load(e))).collect()
}
