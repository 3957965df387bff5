//! Writes the benchmark's full-size floors as linear programs for other solvers:
//! DIR/SHAPE.mps for each shape. The edge-flow model, with one flow for all
//! pairs that share a sink; its optimum is what the floor can carry.

// Of the comparison's modules not everything is needed here.
#![allow(dead_code)]

#[path = "../tests/second/call.rs"]
mod call;
#[path = "../tests/second/floors.rs"]
mod floors;
#[path = "../tests/second/network.rs"]
mod network;
#[path = "../tests/second/random.rs"]
mod random;
#[path = "../tests/second/shapes.rs"]
mod shapes;

use floors::Capacities;
use network::Network;
use random::Random;
use shapes::{FULL_SIZE, SHAPES};
use std::fmt::Write;

fn main() -> std::io::Result<()> {
    let Some(folder) = std::env::args().nth(1) else {
        eprintln!("models: name the folder to write to");
        std::process::exit(2);
    };
    // The floors of bench.rs: the same seed, in the same order.
    let mut random = Random::new(1);
    for shape in SHAPES {
        let net = floors::floor(shape, FULL_SIZE, Capacities::Mixed, &mut random);
        std::fs::write(format!("{folder}/{shape:?}.mps"), model(&net))?;
    }
    Ok(())
}

fn sinks(net: &Network) -> Vec<u64> {
    let mut sinks: Vec<u64> = net.commodities.iter().map(|pair| pair.sink).collect();
    sinks.sort_unstable();
    sinks.dedup();
    sinks
}

/// Row N T V: what leaves node V with sink T is what enters it and what pairs
/// send from there. Row C E: arc E's capacity. Column F I is pair I's amount,
/// column X T E the amount with sink T on arc E, and column Y T E that from head to
/// tail, if E is reversible. MPS minimises, so F counts -1.
fn model(net: &Network) -> String {
    let sinks = sinks(net);
    let mut rows = String::from("NAME floor\nROWS\n N obj\n");
    let mut columns = String::from("COLUMNS\n");
    let mut sides = String::from("RHS\n");
    for sink in &sinks {
        for node in (1..=net.nodes).filter(|node| node != sink) {
            writeln!(rows, " E N{sink}_{node}").unwrap();
        }
    }
    for (e, arc) in net.arcs.iter().enumerate() {
        writeln!(rows, " L C{e}").unwrap();
        writeln!(sides, " rhs C{e} {}", arc.capacity).unwrap();
    }
    for (i, pair) in net.commodities.iter().enumerate() {
        writeln!(columns, " F{i} obj -1 N{}_{} -1", pair.sink, pair.source).unwrap();
    }
    for sink in &sinks {
        for (e, arc) in net.arcs.iter().enumerate() {
            columns += &column("X", *sink, e, [arc.tail, arc.head]);
            if arc.reversible() {
                columns += &column("Y", *sink, e, [arc.head, arc.tail]);
            }
        }
    }
    rows + &columns + &sides + "ENDATA\n"
}

fn column(name: &str, sink: u64, e: usize, [from, to]: [u64; 2]) -> String {
    let mut column = format!(" {name}{sink}_{e} C{e} 1\n");
    for (node, sign) in [(from, 1), (to, -1)] {
        if node != sink {
            writeln!(column, " {name}{sink}_{e} N{sink}_{node} {sign}").unwrap();
        }
    }
    column
}
