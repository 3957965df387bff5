//! The pictures of floors.

use crate::figures::{carried, example, figure, listed, numbers, printed, read, table, Belt};
use crate::figures::{printed_as, whole};
use crate::floor::{arrowhead, double_ring, BLUE, DARK, GREY, ORANGE, RED};
use crate::network::{Arc, Network};
use crate::places::{CROSS, LEVELS, LINE, TWO_DOCKS};
use crate::points::shifted;
use crate::rounded::Fraction;
use crate::svg::{line, Svg};

const WIDTH: u32 = 860;
const HALF: f64 = 430.0;
const LEFT: f64 = 20.0;

/// What each colour means, and how wide the words are; the last only where a belt carries
/// too much.
const KEY: [(&str, &str, f64); 4] = [
    (GREY, "capacity", 68.0),
    (BLUE, "load", 44.0),
    (ORANGE, "full", 40.0),
    (RED, "more than the belt can carry", 0.0),
];

pub fn two_docks() -> String {
    let plan = listed("two_docks");
    let mut svg = Svg::new(WIDTH, 318, "The plan for a floor with two docks");
    TWO_DOCKS.draw(&mut svg, &plan.belts);
    svg.heading((LEFT, 285.0), &carries(plan.total, plan.bound));
    key(&mut svg, 306.0, &KEY[..3]);
    svg.finish()
}

pub fn stuck() -> String {
    let (plan, net) = (listed("cross"), example("cross"));
    assert_eq!(plan.belts[2].load.upper, 0, "the listing's plan leaves the belt across empty");
    let (amount, filled) = filled(&net, &[1, 2, 3, 4]);
    let mut svg = Svg::new(WIDTH, 331, "Two plans for a floor with a belt across");
    svg.heading((LEFT, 25.0), &format!("stuck: {amount}"));
    CROSS.draw(&mut svg, &filled);
    svg.text_from((LEFT, 43.0), "route 1, 2, 3, 4 is filled; every other meets a full belt");
    svg.panel(HALF, |svg| {
        svg.heading((LEFT, 25.0), &format!("the listing's plan: {}", plan.total.down(1)));
        svg.text_from((LEFT, 43.0), "only routes 1, 2, 4 and 1, 3, 4 are used");
        CROSS.draw(svg, &plan.belts);
    });
    svg.heading((LEFT, 298.0), &most(plan.bound));
    key(&mut svg, 319.0, &KEY[..3]);
    svg.finish()
}

/// The belts with one route filled, with as much as its least capacity allows.
fn filled(net: &Network, route: &[u64]) -> (u64, Vec<Belt>) {
    let on = |tail, head| route.windows(2).any(|step| step == [tail, head]);
    let taken = net.arcs.iter().filter(|arc| on(arc.tail, arc.head));
    let amount = taken.map(|arc| arc.capacity).min().expect("the route has belts");
    let load = |tail, head| if on(tail, head) { amount } else { 0 };
    let loaded = |arc: &Arc| Belt::new(arc, Fraction::new(load(arc.tail, arc.head), 1_u64));
    let belts = net.arcs.iter().map(loaded);
    (amount, belts.collect())
}

pub fn one_by_one() -> String {
    let text = read("tests/one_by_one.expected");
    let (apart, together) = text.split_once("in one call").expect("it is solved both ways");
    let mut svg = Svg::new(WIDTH, 280, "Three pairs on one line, one by one and in one call");
    let sum = figure(apart, "added up").down(1);
    svg.heading((LEFT, 25.0), &format!("one by one, added up: {sum}"));
    svg.text_from((LEFT, 43.0), "each pair as if the line were its own");
    alone(&mut svg, apart);
    LINE.draw(&mut svg, &printed(apart));
    svg.panel(HALF, |svg| {
        let total = printed_as(numbers(together)[0]).down(1);
        svg.heading((LEFT, 25.0), &format!("in one call: {total}"));
        svg.text_from((LEFT, 43.0), "the three pairs share the line");
        LINE.draw(svg, &printed(together));
    });
    svg.heading((LEFT, 247.0), &most(figure(together, "bound")));
    key(&mut svg, 268.0, &KEY);
    svg.finish()
}

/// A thin arrow for each pair, with what it carries if nothing else is on the line.
fn alone(svg: &mut Svg, text: &str) {
    let pairs = text.lines().filter(|line| line.starts_with("pair"));
    for (of, up) in pairs.map(numbers).zip([80.0, 46.0, 46.0]) {
        let [source, sink] = [of[0], of[1]].map(whole);
        let [from, to] = [source, sink].map(|station| LINE.at(station));
        let (base, tip) = (shifted(from, 8.0, -up), shifted(to, -8.0, -up));
        svg.stroke(&line([base, shifted(tip, -8.0, 0.0)]), DARK, 1.5);
        arrowhead(svg, DARK, shifted(tip, -8.0, 0.0), tip, 9.0);
        let middle = ((base.0 + tip.0) / 2.0, base.1 - 7.0);
        let total = printed_as(of[2]).down(1);
        svg.text(middle, &format!("pair {source} to {sink} alone: {total}"));
    }
}

pub fn levels() -> String {
    let (text, source) = (read("tests/levels.expected"), read("examples/levels.c"));
    let mut belts = printed(&text);
    let marks = table(&source, "belt[BELTS][4]");
    let marked = belts.iter_mut().zip(marks.chunks(4));
    marked.for_each(|(belt, item)| belt.reversible = item[3] != 0);
    let mut svg = Svg::new(WIDTH, 298, "A lift with a limit and an aisle that runs either way");
    LEVELS.draw(&mut svg, &belts);
    for belt in belts.iter().filter(|belt| belt.reversible) {
        let [east, west] = belt.ways().map(|way| way.down(1));
        let at = shifted(LEVELS.at(belt.tail), 120.0, 29.0);
        svg.text(at, &format!("{east} east, {west} west"));
    }
    for of in text.lines().filter(|line| line.starts_with("station")).map(numbers) {
        LEVELS.limited(&mut svg, whole(of[0]), printed_as(of[1]), whole(of[2]) as u64);
    }
    svg.heading((LEFT, 245.0), &carries(figure(&text, "total"), figure(&text, "bound")));
    svg.text_from((LEFT, 265.0), &pairs(&belts, &source));
    key(&mut svg, 286.0, &KEY[..3]);
    double_ring(&mut svg, (260.0, 282.0), 8.0, GREY);
    svg.text_from((274.0, 286.0), "station with a limit");
    svg.finish()
}

fn pairs(belts: &[Belt], source: &str) -> String {
    let name = |station: usize| LEVELS.stations[station - 1].1;
    let ends = table(source, "pair[PAIRS][2]");
    let each = ends.chunks(2).enumerate().map(|(pair, ends)| {
        let carried = carried(belts, pair, ends[0]).down(1);
        format!("{} to {} {carried}", name(ends[0]), name(ends[1]))
    });
    format!("pairs: {}", each.collect::<Vec<_>>().join(", "))
}

fn most(bound: Fraction) -> String {
    format!("no plan carries more than {} totes an hour", bound.up(1))
}

fn carries(total: Fraction, bound: Fraction) -> String {
    let (total, bound) = (total.down(1), bound.up(1));
    format!("total {total} totes an hour, no plan carries more than {bound}")
}

fn key(svg: &mut Svg, y: f64, key: &[(&str, &str, f64)]) {
    let mut x = LEFT;
    for (colour, words, wide) in key {
        svg.stroke(&line([(x, y - 4.0), (x + 16.0, y - 4.0)]), colour, 9.0);
        svg.text_from((x + 21.0, y), words);
        x += 21.0 + wide;
    }
}
