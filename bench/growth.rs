//! How the library's time grows with m, k and q: prints a table, and writes it as
//! a plot to the SVG file that is named. Sparse floors with capacities 1 to
//! 1,000; one of the three sizes varies, the others stay full.

// Of the comparison's modules not everything is needed here.
#![allow(dead_code)]

#[path = "../tests/second/call.rs"]
mod call;
#[path = "../tests/second/floors.rs"]
mod floors;
mod lend;
#[path = "../tests/second/library.rs"]
mod library;
#[path = "../tests/second/network.rs"]
mod network;
#[path = "../tests/second/random.rs"]
mod random;
#[path = "../tests/second/shapes.rs"]
mod shapes;

use call::{get, Call};
use floors::Capacities;
use random::Random;
use shapes::{Shape, Size, FULL_SIZE};
use std::fmt::Write;
use std::time::Instant;

/// Floors behind each figure, of which the middle one counts.
const FLOORS: u64 = 9;

/// A figure of the table: the size that varies, the time and the choices made.
struct Figure {
    size: u64,
    ms: f64,
    choices: u64,
}

struct Series {
    name: &'static str,
    figures: Vec<Figure>,
}

fn main() -> std::io::Result<()> {
    let full = FULL_SIZE;
    let arcs = |m: u64| figure(m, 8, Size { arcs: m as usize, ..full });
    let pairs = |k: u64| figure(k, 8, Size { commodities: k as usize, ..full });
    let precision = |q: u64| figure(q, q, full);
    let series = [
        Series { name: "m", figures: [8, 16, 32, 64, 128, 256].map(arcs).into() },
        Series { name: "k", figures: [1, 2, 4, 8, 16, 32].map(pairs).into() },
        Series { name: "q", figures: [4, 5, 6, 8, 11, 16].map(precision).into() },
    ];
    for Series { name, figures } in &series {
        println!("| {name} | ms | choices | µs a choice |\n|---|---|---|---|");
        for Figure { size, ms, choices } in figures {
            println!("| {size} | {ms:.2} | {choices} | {:.2} |", ms * 1000.0 / *choices as f64);
        }
        println!();
    }
    match std::env::args().nth(1) {
        Some(file) => std::fs::write(file, plot(&series)),
        None => Ok(()),
    }
}

/// Both ends of a pair are joined by chance; few belts leave them apart, so that
/// floors without a choice are passed over.
fn figure(size: u64, q: u64, floor: Size) -> Figure {
    let mut random = Random::new(size);
    let mut times = Vec::new();
    while (times.len() as u64) < FLOORS {
        let nodes = floor.nodes.min(2 + floor.arcs as u64 / 4);
        let floor = Size { nodes, ..floor };
        let net = floors::floor(Shape::Sparse, floor, Capacities::Mixed, &mut random);
        let (ms, choices) = timed(&Call::new(&net, q));
        if choices > 0 {
            times.push((ms, choices));
        }
    }
    times.sort_by(|a, b| a.0.total_cmp(&b.0));
    let (ms, choices) = times[times.len() / 2];
    Figure { size, ms, choices }
}

/// The quickest of three runs.
fn timed(call: &Call) -> (f64, u64) {
    let mut best = f64::INFINITY;
    let mut choices = 0;
    for _ in 0..3 {
        let mut call = call.clone();
        let began = Instant::now();
        lend::solve_in(&mut call);
        best = best.min(began.elapsed().as_secs_f64() * 1000.0);
        choices = get(&call.answer, 5);
    }
    (best, choices)
}

const WIDTH: f64 = 220.0;
const HEIGHT: f64 = 180.0;

/// Three panels side by side, both axes logarithmic, from 0.01 to 1,000 ms.
fn plot(series: &[Series]) -> String {
    let mut svg = String::from(
        "<svg xmlns=\"http://www.w3.org/2000/svg\" width=\"840\" height=\"250\" \
         font-family=\"sans-serif\" font-size=\"11\">\n\
         <rect width=\"840\" height=\"250\" fill=\"white\"/>\n",
    );
    for (i, series) in series.iter().enumerate() {
        panel(&mut svg, 60.0 + 270.0 * i as f64, series);
    }
    svg + "</svg>\n"
}

fn panel(svg: &mut String, left: f64, series: &Series) {
    let (first, last) = match &series.figures[..] {
        [first, .., last] => (first.size as f64, last.size as f64),
        _ => return,
    };
    let x = |size: f64| left + WIDTH * (size / first).ln() / (last / first).ln();
    let y = |ms: f64| 20.0 + HEIGHT * (1.0 - (ms.max(0.01).log10() + 2.0) / 5.0);
    for power in -2..=3 {
        let (ms, at) = (10f64.powi(power), y(10f64.powi(power)));
        let right = left + WIDTH;
        writeln!(svg, "<path d=\"M{left} {at:.1}H{right}\" stroke=\"#ddd\"/>").unwrap();
        let mark = left - 6.0;
        writeln!(svg, "<text x=\"{mark}\" y=\"{:.1}\" text-anchor=\"end\">{ms}</text>", at + 4.0)
            .unwrap();
    }
    let mut line = String::new();
    for Figure { size, ms, .. } in &series.figures {
        let (at, up) = (x(*size as f64), y(*ms));
        write!(line, "{}{at:.1} {up:.1}", if line.is_empty() { "M" } else { "L" }).unwrap();
        writeln!(svg, "<circle cx=\"{at:.1}\" cy=\"{up:.1}\" r=\"3\"/>").unwrap();
        writeln!(svg, "<text x=\"{at:.1}\" y=\"216\" text-anchor=\"middle\">{size}</text>")
            .unwrap();
    }
    writeln!(svg, "<path d=\"{line}\" fill=\"none\" stroke=\"black\"/>").unwrap();
    let middle = left + WIDTH / 2.0;
    let name = series.name;
    writeln!(svg, "<text x=\"{middle}\" y=\"238\" text-anchor=\"middle\">{name}, ms</text>")
        .unwrap();
}
