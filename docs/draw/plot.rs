//! Curves over the choices of a run, as high as they are powers of 1 + 1/q over 2^36.

use crate::method::SCALE;
use crate::points::{shifted, Point};
use crate::svg::{line, Svg, INK};

pub const LEFT: f64 = 60.0;
const RIGHT: f64 = 795.0;
const TOP: f64 = 38.0;
const BOTTOM: f64 = 438.0;
const HIGHEST: f64 = 63.0;

const RULE: &str = "#e3e3e3";
const AXIS: &str = "#666";

pub struct Plot {
    pub choices: u64,
}

impl Plot {
    /// Behind the last choice there is room for how the run ended.
    fn x(&self, choice: u64) -> f64 {
        LEFT + (RIGHT - LEFT) * choice as f64 / (self.choices + 2) as f64
    }

    fn y(&self, height: f64) -> f64 {
        BOTTOM - (BOTTOM - TOP) * height / HIGHEST
    }

    /// A curve by its heights before each choice and at the end.
    pub fn points(&self, heights: &[f64]) -> Vec<Point> {
        heights.iter().zip(0..).map(|(height, choice)| (self.x(choice), self.y(*height))).collect()
    }

    /// The same, each height kept for the choice that follows, and the last one as long.
    pub fn steps(&self, heights: &[f64]) -> Vec<Point> {
        let level = |(height, choice): (&f64, u64)| {
            [choice, choice + 1].map(|choice| (self.x(choice), self.y(*height)))
        };
        heights.iter().zip(0..).flat_map(level).collect()
    }

    pub fn curve(&self, svg: &mut Svg, points: &[Point], colour: &str) {
        svg.stroke(&line(points.iter().copied()), colour, 1.2);
    }

    pub fn band(&self, svg: &mut Svg, lower: &[Point], upper: &[Point], colour: &str) {
        svg.fill(&line(lower.iter().chain(upper.iter().rev()).copied()), colour);
    }

    /// A line straight across, with its words at the left.
    pub fn mark(&self, svg: &mut Svg, height: f64, words: &str) {
        let y = self.y(height);
        svg.dashed(&line([(LEFT, y), (RIGHT, y)]), AXIS);
        svg.text_from((LEFT + 8.0, y - 6.0), words);
    }

    /// Words along a curve: around which choice, and how far below.
    pub fn along(
        &self,
        svg: &mut Svg,
        heights: &[f64],
        (choice, below): (usize, f64),
        colour: &str,
        words: &str,
    ) {
        let points = self.points(heights);
        let [first, .., last] = points[..] else { return };
        let slope = (last.1 - first.1).atan2(last.0 - first.0).to_degrees();
        svg.turned(shifted(points[choice], 0.0, below), slope, colour, words);
    }

    /// A doubling is so many powers of 1 + 1/q.
    pub fn axes(&self, svg: &mut Svg, doubling: f64) {
        for height in (0..=HIGHEST as u64).step_by(10) {
            let y = self.y(height as f64);
            svg.stroke(&line([(LEFT, y), (RIGHT, y)]), RULE, 1.0);
            svg.text_to((LEFT - 7.0, y + 4.0), &height.to_string());
        }
        for doublings in (0..=(HIGHEST / doubling) as u32).step_by(4) {
            let y = self.y(f64::from(doublings) * doubling);
            svg.stroke(&line([(RIGHT, y), (RIGHT + 5.0, y)]), AXIS, 1.0);
            svg.text_from((RIGHT + 8.0, y + 4.0), &format!("2^{}", SCALE.ilog2() + doublings));
        }
        for choice in (0..self.choices).step_by(20).chain([self.choices]) {
            let x = self.x(choice);
            svg.stroke(&line([(x, BOTTOM), (x, BOTTOM + 5.0)]), AXIS, 1.0);
            svg.text((x, BOTTOM + 19.0), &choice.to_string());
        }
        let frame = [(LEFT, TOP), (LEFT, BOTTOM), (RIGHT, BOTTOM), (RIGHT, TOP)];
        svg.stroke(&line(frame), AXIS, 1.0);
        svg.text(((LEFT + RIGHT) / 2.0, BOTTOM + 40.0), "choices so far");
        let half = (TOP + BOTTOM) / 2.0;
        svg.turned((LEFT - 35.0, half), -90.0, INK, "powers of 1 + 1/q over 2^36");
        svg.turned((RIGHT + 52.0, half), -90.0, INK, "the same as powers of 2");
    }
}
