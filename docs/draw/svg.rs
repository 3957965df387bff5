//! An SVG picture, element by element, with coordinates to a tenth.

use crate::points::Point;
use std::fmt::Write;

pub const INK: &str = "#222";

pub struct Svg(String);

impl Svg {
    /// Pages are read on dark backgrounds too, so a picture brings its own.
    pub fn new(width: u32, height: u32, title: &str) -> Svg {
        Svg(format!(
            "<svg xmlns=\"http://www.w3.org/2000/svg\" width=\"{width}\" height=\"{height}\" \
             viewBox=\"0 0 {width} {height}\" role=\"img\" font-family=\"sans-serif\" \
             font-size=\"12\">\n<title>{title}</title>\n\
             <rect width=\"{width}\" height=\"{height}\" fill=\"white\"/>\n"
        ))
    }

    pub fn finish(self) -> String {
        self.0 + "</svg>\n"
    }

    /// What is drawn within stands so far to the right.
    pub fn panel(&mut self, right: f64, draw: impl FnOnce(&mut Svg)) {
        writeln!(self.0, "<g transform=\"translate({right:.1} 0)\">").unwrap();
        draw(self);
        self.0 += "</g>\n";
    }

    pub fn stroke(&mut self, path: &str, colour: &str, width: f64) {
        let pen = format!("stroke=\"{colour}\" stroke-width=\"{width:.1}\"");
        writeln!(self.0, "<path d=\"{path}\" fill=\"none\" {pen}/>").unwrap();
    }

    pub fn dashed(&mut self, path: &str, colour: &str) {
        let pen = format!("stroke=\"{colour}\" stroke-dasharray=\"5 4\"");
        writeln!(self.0, "<path d=\"{path}\" fill=\"none\" {pen}/>").unwrap();
    }

    pub fn fill(&mut self, path: &str, colour: &str) {
        writeln!(self.0, "<path d=\"{path}Z\" fill=\"{colour}\"/>").unwrap();
    }

    pub fn ring(&mut self, (x, y): Point, radius: f64, inside: &str) {
        let pen = format!("fill=\"{inside}\" stroke=\"{INK}\" stroke-width=\"1.5\"");
        writeln!(self.0, "<circle cx=\"{x:.1}\" cy=\"{y:.1}\" r=\"{radius:.1}\" {pen}/>").unwrap();
    }

    /// Around its middle, as the labels of belts are.
    pub fn text(&mut self, at: Point, words: &str) {
        self.words(at, INK, "text-anchor=\"middle\"", words);
    }

    pub fn name(&mut self, at: Point, words: &str) {
        self.words(at, INK, "text-anchor=\"middle\" font-weight=\"bold\"", words);
    }

    pub fn text_from(&mut self, left: Point, words: &str) {
        self.words(left, INK, "text-anchor=\"start\"", words);
    }

    pub fn text_to(&mut self, right: Point, words: &str) {
        self.words(right, INK, "text-anchor=\"end\"", words);
    }

    pub fn heading(&mut self, left: Point, words: &str) {
        self.words(left, INK, "font-size=\"13\" font-weight=\"bold\"", words);
    }

    /// Around its middle, turned to the right by so many degrees.
    pub fn turned(&mut self, (x, y): Point, degrees: f64, colour: &str, words: &str) {
        let turn = format!("transform=\"rotate({degrees:.1} {x:.1} {y:.1})\"");
        self.words((x, y), colour, &format!("text-anchor=\"middle\" {turn}"), words);
    }

    /// With a white rim, which keeps words apart from what they stand on.
    fn words(&mut self, (x, y): Point, colour: &str, how: &str, words: &str) {
        let rim = "stroke=\"white\" stroke-width=\"3\" paint-order=\"stroke\"";
        let pen = format!("fill=\"{colour}\" {rim}");
        writeln!(self.0, "<text x=\"{x:.1}\" y=\"{y:.1}\" {pen} {how}>{words}</text>").unwrap();
    }
}

/// A line through these points.
pub fn line(points: impl IntoIterator<Item = Point>) -> String {
    let mut path = String::new();
    for (x, y) in points {
        write!(path, "{}{x:.1} {y:.1}", if path.is_empty() { "M" } else { "L" }).unwrap();
    }
    path
}
