//! Both sides of the proof along one run (docs/GUARANTEE.md, steps 4 to 7): what the fullest
//! belt's load asks for, that belt's length, D, and what D stays below. All are drawn as
//! powers of 1 + 1/q over 2^36; lengths, and with them D, count times 2 to the halvings.

use crate::figures::example;
use crate::method::{level, weight, SCALE};
use crate::plot::{Plot, LEFT};
use crate::slipped::{run_seen, Run, Slip};
use crate::svg::Svg;

const FLOOR: &str = "two_docks";
const PRECISION: u64 = 4;

const LOAD: &str = "#d3e3f6";
const LENGTH: &str = "#1f5fb0";
const WEIGHT: &str = "#1b7f4d";
const UPPER: &str = "#b8410b";
const ROOM: &str = "#fbd9b5";

/// Heights at one moment of the run; `drawn` is by how much the upper side has risen.
struct Moment {
    load: f64,
    length: f64,
    weight: f64,
    drawn: f64,
}

pub fn sides() -> String {
    let net = example(FLOOR);
    let mut seen = Vec::new();
    let end = run_seen(&net, PRECISION, Slip::None, |run| seen.push(run.clone()));
    let moments: Vec<Moment> = seen.iter().map(|run| moment(run, &end)).collect();
    let mut svg = Svg::new(860, 490, "Both sides of the proof along one run");
    let plot = Plot { choices: end.iterations };
    svg.heading((LEFT, 22.0), &run_of(&end));
    draw(&mut svg, &plot, &moments, &end);
    svg.finish()
}

/// The figures that the page names.
fn run_of(end: &Run) -> String {
    let (m, q, mark, choices) = (end.net.arcs.len(), end.q, end.mark, end.iterations);
    let (level, b) = (level(m, q), end.fullest() + 1);
    format!(
        "examples/{FLOOR}.max at q = {q}: m = {m}, L = {level}, T = {mark}, {choices} choices; \
         the fullest belt b is belt {b}"
    )
}

fn draw(svg: &mut Svg, plot: &Plot, moments: &[Moment], end: &Run) {
    let (m, q) = (end.net.arcs.len(), end.q);
    let (level, belts) = (level(m, q) as f64, powers(m as f64, q));
    let curve = |height: &dyn Fn(&Moment) -> f64| moments.iter().map(height).collect::<Vec<_>>();
    let (load, length) = (curve(&|of| of.load), curve(&|of| of.length));
    let (weight, upper) = (curve(&|of| of.weight), curve(&|of| belts + of.drawn));
    let room = [1.0, 9.0 / 8.0].map(|part| curve(&|of| part * level + of.drawn));
    plot.band(svg, &plot.steps(&load), &plot.steps(&vec![0.0; load.len()]), LOAD);
    plot.band(svg, &plot.points(&room[0]), &plot.points(&room[1]), ROOM);
    plot.axes(svg, powers(2.0, q));
    plot.mark(svg, end.mark as f64, &format!("T = {}: the run ends", end.mark));
    plot.curve(svg, &plot.steps(&length), LENGTH);
    plot.curve(svg, &plot.points(&weight), WEIGHT);
    plot.curve(svg, &plot.points(&upper), UPPER);
    let above = length.iter().zip(&load).map(|(length, load)| length - load).fold(0.0, f64::max);
    let above = (above * 100.0).ceil() / 100.0;
    let near = format!("the fullest belt's length: 2^H c(b) l(b), at most {above:.2} above");
    let asked = "what its load asks for: 2^36 (1 + 1/q)^(Y(b)/c(b))";
    plot.along(svg, &room[1], (60, -8.0), UPPER, "room for roundings: an eighth of L");
    plot.along(svg, &upper, (75, 15.0), UPPER, "the upper side without roundings");
    plot.along(svg, &weight, (66, 17.0), WEIGHT, "all belts' lengths: 2^H D");
    plot.along(svg, &length, (66, -12.0), LENGTH, &near);
    plot.along(svg, &load, (66, 27.0), LENGTH, asked);
}

/// How many times 1 + 1/q.
fn powers(value: f64, q: u64) -> f64 {
    value.ln() / (1.0 / q as f64).ln_1p()
}

fn moment(run: &Run, end: &Run) -> Moment {
    let (q, b) = (run.q, end.fullest());
    let capacity = run.net.arcs[b].capacity;
    let doubled = |value: u64| value as f64 * f64::from(run.halvings).exp2() / SCALE as f64;
    let all = weight(&run.net.capacities(), &run.lengths);
    let share = (8 * q + 5) as f64 / (8 * q) as f64;
    Moment {
        load: run.loads[b] as f64 / capacity as f64,
        length: powers(doubled(capacity * run.lengths[b]), q),
        weight: powers(doubled(all), q),
        drawn: share * run.drawn as f64 / end.least.fraction().value(),
    }
}
