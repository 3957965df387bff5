//! Fractions as pages and examples print them (docs/DECISIONS.md, "Tests", 11): what a plan
//! carries and a share of a bound rounded down, a bound rounded up, and nothing before that.

#[derive(Clone, Copy)]
pub struct Fraction {
    pub upper: u128,
    pub lower: u128,
}

impl Fraction {
    pub fn new(upper: impl Into<u128>, lower: impl Into<u128>) -> Fraction {
        Fraction { upper: upper.into(), lower: lower.into() }
    }

    /// A total over its bound, or anything over another.
    pub fn over(self, other: Fraction) -> Fraction {
        Fraction { upper: self.upper * other.lower, lower: self.lower * other.upper }
    }

    /// How many parts of it are whole, if so many make one.
    pub fn parts(self, of_one: u128) -> u128 {
        self.upper * of_one / self.lower
    }

    /// To so many places, at least one.
    pub fn down(self, places: u32) -> String {
        decimal(self.parts(10_u128.pow(places)), places)
    }

    pub fn up(self, places: u32) -> String {
        decimal((self.upper * 10_u128.pow(places)).div_ceil(self.lower), places)
    }

    /// Whole if it is, otherwise three places, rounded down.
    pub fn short(self) -> String {
        match self.upper % self.lower {
            0 => (self.upper / self.lower).to_string(),
            _ => self.down(3),
        }
    }

    /// Near enough to draw by.
    pub fn value(self) -> f64 {
        self.upper as f64 / self.lower as f64
    }
}

fn decimal(parts: u128, places: u32) -> String {
    let one = 10_u128.pow(places);
    format!("{}.{:0wide$}", parts / one, parts % one, wide = places as usize)
}
