//! The listing of document 01, "File and listing", by the second solver.

use crate::call::{Call, Refusal};
use crate::dimacs;
use crate::network::{Network, Solution};

const PRECISION: u64 = 4;

pub fn listing(file: &[u8], solve: fn(&Network, u64) -> Solution) -> Vec<u8> {
    let rows = match accepted(file) {
        Ok(net) => plan(&net, &solve(&net, PRECISION)),
        Err(refusal) => vec![format!("refused,,,{},{}", refusal.number, refusal.place)],
    };
    let header = String::from("row,tail,head,upper,lower");
    let ended: Vec<String> = std::iter::once(header).chain(rows).map(|row| row + "\r\n").collect();
    ended.concat().into_bytes()
}

pub fn accepted(file: &[u8]) -> Result<Network, Refusal> {
    let net = dimacs::read(file)?;
    match Call::new(&net, PRECISION).refusal() {
        Some(refusal) => Err(refusal),
        None => Ok(net),
    }
}

fn plan(net: &Network, solution: &Solution) -> Vec<String> {
    let [drawn, capacity, load, weight, alpha, iterations, which] = solution.answer;
    let mut rows = vec![
        format!("total,,,{},{load}", drawn * capacity),
        format!("bound,,,{weight},{alpha}"),
        format!("steps,,,{iterations},{which}"),
    ];
    for (arc, drawn) in net.arcs.iter().zip(&solution.loads) {
        rows.push(format!("belt,{},{},{},{load}", arc.tail, arc.head, drawn * capacity));
    }
    rows
}
