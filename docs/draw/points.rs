//! Points of a picture, x to the right and y down.

pub type Point = (f64, f64);

pub fn shifted((x, y): Point, dx: f64, dy: f64) -> Point {
    (x + dx, y + dy)
}

pub fn middle(a: Point, b: Point) -> Point {
    ((a.0 + b.0) / 2.0, (a.1 + b.1) / 2.0)
}

pub fn distance(a: Point, b: Point) -> f64 {
    (b.0 - a.0).hypot(b.1 - a.1)
}

/// From the first point so far towards the second, and so far to the right of this way.
pub fn stepped(from: Point, to: Point, ahead: f64, right: f64) -> Point {
    let (dx, dy) = (to.0 - from.0, to.1 - from.1);
    let (ahead, right) = (ahead / distance(from, to), right / distance(from, to));
    shifted(from, ahead * dx - right * dy, ahead * dy + right * dx)
}
