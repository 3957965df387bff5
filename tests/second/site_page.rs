//! What examples/site.c should print (request C-14): its floors by the second solver, each
//! alone, one after the other; then again with a belt that carries too much.

use crate::call::Call;
use crate::network::{network, Network};
use crate::{after, arc, bound, carried, constant, items, numbers, scaled, solver, total};

struct Floor {
    net: Network,
    q: u64,
}

pub fn print(source: &str) {
    let mut belts = items(after(source, "belt[BELTS]"));
    let [widened, capacity] = ["WIDENED =", "TOO_MUCH ="].map(|name| constant(source, name));
    let mut count = 0;
    println!("as it is built:");
    print_site(source, &belts, &mut count);
    belts[widened as usize][2] = capacity;
    println!("with too wide a belt below:");
    print_site(source, &belts, &mut count);
}

fn print_site(source: &str, belts: &[Vec<u64>], count: &mut u64) {
    for (Floor { net, q }, number) in floors(source, belts).iter().zip(1..) {
        print!("floor {number} returned ");
        match Call::new(net, *q).refusal() {
            None => *count += print_plan(net, *q),
            Some(refusal) => {
                let word = if refusal.number == 7 { "capacity" } else { "another" };
                print!("{}, refused: {} ({word}), ", refusal.returned(), refusal.number);
                println!("place {}", refusal.place);
            }
        }
    }
    println!("choices of office {} so far: {count}", constant(source, "OFFICE ="));
}

/// Each takes its belts, pairs and limits from where those of the floor before end.
fn floors(source: &str, belts: &[Vec<u64>]) -> Vec<Floor> {
    let mut arcs = belts.iter().map(|belt| arc(belt));
    let mut pairs = items(after(source, "pair[PAIRS]")).into_iter();
    let mut limits = numbers(after(after(source, "limit[LIMITS]"), "=")).into_iter();
    let floor = |item: Vec<u64>| {
        let [m, k, limited] = [2, 3, 4].map(|place| item[place] as usize);
        let ends: Vec<_> = pairs.by_ref().take(k).map(|pair| (pair[0], pair[1])).collect();
        let arcs = arcs.by_ref().take(m).collect();
        let limits = limits.by_ref().take(limited).collect();
        Floor { net: Network { arcs, limits, ..network(item[0], &[], &ends) }, q: item[1] }
    };
    items(after(source, "site[FLOORS]")).into_iter().map(floor).collect()
}

/// Says how many choices were made.
fn print_plan(net: &Network, q: u64) -> u64 {
    let solution = solver::solve(net, q);
    let (total, bound) = (total(&solution).down(3), bound(&solution).up(3));
    let choices = solution.answer[5];
    println!("0, total {total}, bound {bound}, choices {choices}");
    let rows = solution.flow.chunks(net.arcs.len());
    for ((pair, row), number) in net.commodities.iter().zip(rows).zip(1..) {
        let total = scaled(&solution, carried(net, row, pair.source)).down(3);
        println!("  pair {number} carries {total}");
    }
    choices
}
