//! A floor as a picture: a belt is a grey band as wide as its capacity, and on it lies a
//! coloured one as wide as its load.

use crate::figures::Belt;
use crate::points::{distance, middle, shifted, stepped, Point};
use crate::rounded::Fraction;
use crate::svg::{line, Svg};
use std::cmp::Ordering;

pub const DARK: &str = "#444";
pub const GREY: &str = "#c6cdd6";
pub const BLUE: &str = "#5294de";
pub const ORANGE: &str = "#f2980f";
pub const RED: &str = "#d4352b";

const RADIUS: f64 = 15.0;
const HEAD: f64 = 12.0;

/// Where a station stands, its name, and how far from it the middle of the name's line is.
pub type Station = (Point, &'static str, Point);

/// How far a belt bends to the right of its way, and how far from the middle of the belt
/// that of its label stands.
pub type Place = (f64, Point);

pub struct Layout {
    pub stations: &'static [Station],
    pub places: &'static [Place],
    /// The width of one tote an hour.
    pub tote: f64,
}

/// A belt's middle line between the rims of two stations, less its arrowheads: bent
/// towards the middle point, and straight if that lies between the others.
struct Way {
    start: Point,
    bent: Point,
    end: Point,
}

impl Layout {
    pub fn at(&self, station: usize) -> Point {
        self.stations[station - 1].0
    }

    pub fn draw(&self, svg: &mut Svg, belts: &[Belt]) {
        for (belt, place) in belts.iter().zip(self.places) {
            self.band(svg, belt, &self.way(belt, place.0));
        }
        for ((at, name, (dx, dy)), number) in self.stations.iter().zip(1..) {
            svg.ring(*at, RADIUS, "white");
            svg.text(shifted(*at, 0.0, 4.0), &number.to_string());
            if !name.is_empty() {
                svg.name(shifted(*at, *dx, *dy), name);
            }
        }
        for (belt, (bend, (dx, dy))) in belts.iter().zip(self.places) {
            let (from, to) = (self.at(belt.tail), self.at(belt.head));
            let half = stepped(middle(from, to), to, 0.0, *bend);
            svg.text(shifted(half, *dx, dy + 4.0), &of(belt.load, belt.capacity));
        }
    }

    /// A quadratic curve comes half as near to its middle point.
    fn way(&self, belt: &Belt, bend: f64) -> Way {
        let (from, to) = (self.at(belt.tail), self.at(belt.head));
        let bent = stepped(middle(from, to), to, 0.0, 2.0 * bend);
        let before = RADIUS + if belt.reversible { HEAD } else { 0.0 };
        let (start, end) =
            (stepped(from, bent, before, 0.0), stepped(to, bent, RADIUS + HEAD, 0.0));
        Way { start, bent, end }
    }

    fn band(&self, svg: &mut Svg, belt: &Belt, way: &Way) {
        let path = way.path();
        let (load, capacity) = (self.tote * belt.load.value(), self.tote * belt.capacity as f64);
        let colour = colour(belt.load, belt.capacity);
        svg.stroke(&path, GREY, capacity);
        svg.stroke(&path, colour, load);
        if colour == RED {
            svg.stroke(&path, GREY, capacity);
            svg.stroke(&path, RED, capacity - 4.0);
        }
        let wide = capacity.max(load).max(HEAD);
        arrowhead(svg, DARK, way.end, stepped(way.end, way.bent, -HEAD, 0.0), wide);
        if belt.reversible {
            arrowhead(svg, DARK, way.start, stepped(way.start, way.bent, -HEAD, 0.0), wide);
            self.lanes(svg, belt.ways(), way);
        }
    }

    /// What goes each way of a straight belt, apart, in the direction in which it goes.
    fn lanes(&self, svg: &mut Svg, ways: [Fraction; 2], Way { start, bent, end }: &Way) {
        let [forth, back] = ways.map(|amount| self.tote * amount.value());
        let between = (forth - back) / 2.0;
        let ends = [stepped(*start, *bent, 0.0, between), stepped(*end, *bent, 0.0, -between)];
        svg.stroke(&line(ends), "white", 1.5);
        for (from, to, right) in [(start, end, -back / 2.0), (end, start, -forth / 2.0)] {
            for share in [0.25, 0.5, 0.75] {
                let at = share * distance(*from, *to);
                let [base, tip] = [-3.0, 3.0].map(|more| stepped(*from, *to, at + more, right));
                arrowhead(svg, "white", base, tip, 7.0);
            }
        }
    }

    /// Drawn over a station that is limited, with what passes there below it.
    pub fn limited(&self, svg: &mut Svg, station: usize, passes: Fraction, limit: u64) {
        let at = self.at(station);
        double_ring(svg, at, RADIUS, colour(passes, limit));
        svg.text(shifted(at, 0.0, 4.0), &station.to_string());
        svg.text(shifted(at, 0.0, 33.0), &of(passes, limit));
    }
}

/// A limited station has a second ring, and between the two the colour of its load.
pub fn double_ring(svg: &mut Svg, at: Point, radius: f64, colour: &str) {
    svg.ring(at, radius, colour);
    svg.ring(at, 0.67 * radius, "white");
}

impl Way {
    fn path(&self) -> String {
        let [(a, b), (c, d), (e, f)] = [self.start, self.bent, self.end];
        format!("M{a:.1} {b:.1}Q{c:.1} {d:.1} {e:.1} {f:.1}")
    }
}

fn of(load: Fraction, capacity: u64) -> String {
    format!("{} of {capacity}", load.down(1))
}

/// A belt is full if its load is its capacity, and not a little less.
fn colour(load: Fraction, capacity: u64) -> &'static str {
    match load.upper.cmp(&(u128::from(capacity) * load.lower)) {
        Ordering::Greater => RED,
        Ordering::Equal => ORANGE,
        Ordering::Less => BLUE,
    }
}

/// From the middle of its base, so wide, to its tip.
pub fn arrowhead(svg: &mut Svg, colour: &str, base: Point, tip: Point, wide: f64) {
    let [right, left] = [wide / 2.0, -wide / 2.0].map(|right| stepped(base, tip, 0.0, right));
    svg.fill(&line([tip, right, left]), colour);
}
