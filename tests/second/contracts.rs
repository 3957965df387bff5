//! What examples/whole.c should print (request C-15): of each commodity the whole totes
//! an hour and the remainder, then their sum beside what the plan carries.

use crate::{carried, solver, Example};

pub fn print(Example { net, q, .. }: &Example) {
    let solution = solver::solve(net, *q);
    let [drawn, capacity, load, ..] = solution.answer;
    let mut promised = 0;
    for (pair, row) in net.commodities.iter().zip(solution.flow.chunks(net.arcs.len())) {
        let (whole, rest) = parted(carried(net, row, pair.source) * capacity, load);
        print!("pair {} to {}: ", pair.source, pair.sink);
        println!("{whole} totes an hour, remainder {rest}/{load}");
        promised += whole;
    }
    let (whole, rest) = parted(drawn * capacity, load);
    let (lost, of_one) = parted(drawn * capacity - promised * load, load);
    println!("contracts together: {promised} totes an hour");
    println!("the plan carries: {whole} + {rest}/{load}");
    let pairs = net.commodities.len();
    let less = if lost < pairs as u64 { "less" } else { "no less" };
    print!("lost by rounding: {lost} + {of_one}/{load}, ");
    println!("{less} than one for each of {pairs} pairs");
}

/// As many wholes as fit, counted one by one, and what is left over.
fn parted(parts: u64, load: u64) -> (u64, u64) {
    let whole = (1..).take_while(|whole| whole * load <= parts).count() as u64;
    (whole, parts - whole * load)
}
