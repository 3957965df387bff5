//! The figures of a picture, from what the programs print: stored listings, and the stored
//! output of the C examples. They are exact until they are written.

use crate::dimacs;
use crate::network::{Arc, Network};
use crate::rounded::Fraction;

/// `amounts` are the pairs' in thousandths, below zero from head to tail, where the program
/// prints them.
pub struct Belt {
    pub tail: usize,
    pub head: usize,
    pub capacity: u64,
    pub load: Fraction,
    pub amounts: Vec<i64>,
    pub reversible: bool,
}

impl Belt {
    pub fn new(arc: &Arc, load: Fraction) -> Belt {
        let (tail, head) = (arc.tail as usize, arc.head as usize);
        Belt { tail, head, capacity: arc.capacity, load, amounts: Vec::new(), reversible: false }
    }

    /// What goes from tail to head, and what from head to tail.
    pub fn ways(&self) -> [Fraction; 2] {
        let going = |sign: i64| self.amounts.iter().map(move |amount| (sign * amount).max(0));
        [1, -1].map(|sign| printed_as(going(sign).sum()))
    }
}

pub struct Plan {
    pub belts: Vec<Belt>,
    pub total: Fraction,
    pub bound: Fraction,
}

pub fn read(path: &str) -> String {
    std::fs::read_to_string(path).unwrap_or_else(|_| panic!("{path} can be read"))
}

pub fn example(name: &str) -> Network {
    let file = read(&format!("examples/{name}.max"));
    dimacs::read(file.as_bytes()).expect("the floor is not turned down")
}

/// The plan of a stored listing, with the capacities of its file.
pub fn listed(name: &str) -> Plan {
    let listing = read(&format!("examples/{name}.csv"));
    let value = |row: &str| fractions(&listing, row)[0].1;
    let (net, loads) = (example(name), fractions(&listing, "belt"));
    let belts = net.arcs.iter().zip(&loads).map(|(arc, (ends, load))| {
        assert_eq!(*ends, format!("{},{}", arc.tail, arc.head), "file and listing have one order");
        Belt::new(arc, *load)
    });
    Plan { belts: belts.collect(), total: value("total"), bound: value("bound") }
}

/// The rows of this name: the fields between, and upper over lower.
fn fractions(listing: &str, row: &str) -> Vec<(String, Fraction)> {
    let fields = listing.lines().map(|line| line.split(',').collect::<Vec<_>>());
    let named = fields.filter(|fields| fields[0] == row);
    let number = |field: &str| field.parse::<u64>().expect("a fraction has two numbers");
    let fraction = |of: &[&str]| Fraction::new(number(of[3]), number(of[4]));
    named.map(|of| (of[1..3].join(","), fraction(&of))).collect()
}

/// The belts that an example prints, none of them marked as reversible.
pub fn printed(text: &str) -> Vec<Belt> {
    let lines = text.lines().filter(|line| line.trim().starts_with("belt"));
    lines.map(|line| carrying(&numbers(line))).collect()
}

/// Behind a belt's load and capacity may stand the pairs, each with its amount.
fn carrying(numbers: &[i64]) -> Belt {
    let [tail, head, load, capacity, pairs @ ..] = numbers else { panic!("a belt has four") };
    let [tail, head, capacity] = [tail, head, capacity].map(|number| whole(*number) as u64);
    let amounts = pairs.chunks(2).map(|pair| pair[1]).collect();
    Belt { amounts, ..Belt::new(&Arc::one_way(tail, head, capacity), printed_as(*load)) }
}

/// What leaves a pair's source less what enters it.
pub fn carried(belts: &[Belt], pair: usize, source: usize) -> Fraction {
    let out = |belt: &Belt| i64::from(belt.tail == source) - i64::from(belt.head == source);
    printed_as(belts.iter().map(|belt| out(belt) * belt.amounts[pair]).sum())
}

/// What a table of an example is set to; its comments have no numbers.
pub fn table(source: &str, name: &str) -> Vec<usize> {
    let set = after(after(source, name), "=").split(';').next().unwrap_or_default();
    numbers(set).into_iter().map(whole).collect()
}

/// The number behind these words.
pub fn figure(text: &str, words: &str) -> Fraction {
    printed_as(numbers(after(text, words))[0])
}

fn after<'a>(text: &'a str, words: &str) -> &'a str {
    text.split_once(words).expect("the text has these words").1
}

/// The size of so many thousandths, and a whole number of which there are so many.
pub fn printed_as(thousandths: i64) -> Fraction {
    Fraction::new(thousandths.unsigned_abs(), 1000_u64)
}

pub fn whole(thousandths: i64) -> usize {
    thousandths as usize / 1000
}

/// The numbers of a text, in thousandths: none has more than three places.
pub fn numbers(text: &str) -> Vec<i64> {
    let other = |c: char| !(c.is_ascii_digit() || c == '.' || c == '-');
    let thousandths = |word: &str| {
        let (whole, places) = word.split_once('.').unwrap_or((word, ""));
        format!("{whole}{places:0<3}").parse().ok()
    };
    let words = text.split(other).filter(|word| word.contains(|c: char| c.is_ascii_digit()));
    words.filter_map(thousandths).collect()
}
