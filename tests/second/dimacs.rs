//! The reader of document 01, "File and listing": from the bytes of a file to a
//! network of one pair, or a refusal. What it turns down is the layout, and n and
//! m on the p line; belts and the pair are checked with every other call.

use crate::call::Refusal;
use crate::network::{network, Arc, Network};

pub const LONGEST: usize = 65_536;

/// What the lines so far have given, from the p line on.
struct Floor {
    nodes: u64,
    belts: usize,
    arcs: Vec<Arc>,
    source: Option<u64>,
    sink: Option<u64>,
}

pub fn read(file: &[u8]) -> Result<Network, Refusal> {
    if file.len() > LONGEST {
        return Err(Refusal { number: 10, place: 0 });
    }
    let mut floor = None;
    for (line, place) in lines(file).into_iter().zip(1..) {
        if line.first() != Some(&b'c') {
            floor = Some(take(floor, line, place)?);
        }
    }
    floor.and_then(whole).ok_or(layout(0))
}

fn layout(place: u64) -> Refusal {
    Refusal { number: 9, place }
}

/// A line feed ends a line, so that after the last one nothing follows.
fn lines(file: &[u8]) -> Vec<&[u8]> {
    let mut lines: Vec<&[u8]> = file.split(|byte| *byte == b'\n').collect();
    lines.pop_if(|last| last.is_empty());
    lines
}

fn take(floor: Option<Floor>, line: &[u8], place: u64) -> Result<Floor, Refusal> {
    let broken = layout(place);
    let words = words(line).ok_or(broken)?;
    match floor {
        None => problem(&words, broken),
        Some(floor) => floor.with(&words).ok_or(broken),
    }
}

/// A line that begins with a blank has none.
fn words(line: &[u8]) -> Option<Vec<&[u8]>> {
    let blank = |byte: &u8| matches!(byte, b' ' | b'\t');
    if line.first().is_none_or(blank) {
        return None;
    }
    Some(line.split(blank).filter(|word| !word.is_empty()).collect())
}

fn number(word: &[u8]) -> Option<u64> {
    let digits = (1..=9).contains(&word.len()) && word.iter().all(u8::is_ascii_digit);
    digits.then(|| word.iter().fold(0, |number, digit| number * 10 + u64::from(digit - b'0')))
}

fn problem(words: &[&[u8]], broken: Refusal) -> Result<Floor, Refusal> {
    let [b"p", b"max", n, m] = words else { return Err(broken) };
    let (nodes, belts) = number(n).zip(number(m)).ok_or(broken)?;
    if !(2..=64).contains(&nodes) {
        return Err(Refusal { number: 1, place: 0 });
    }
    if !(1..=256).contains(&belts) {
        return Err(Refusal { number: 2, place: 0 });
    }
    Ok(Floor { nodes, belts: belts as usize, arcs: Vec::new(), source: None, sink: None })
}

impl Floor {
    fn with(mut self, words: &[&[u8]]) -> Option<Floor> {
        match words {
            [b"n", node, b"s"] if self.source.is_none() => self.source = Some(number(node)?),
            [b"n", node, b"t"] if self.sink.is_none() => self.sink = Some(number(node)?),
            [b"a", tail, head, capacity] if self.arcs.len() < self.belts => {
                let arc = Arc::one_way(number(tail)?, number(head)?, number(capacity)?);
                self.arcs.push(arc);
            }
            _ => return None,
        }
        Some(self)
    }
}

fn whole(floor: Floor) -> Option<Network> {
    let (source, sink) = floor.source.zip(floor.sink)?;
    let net = network(floor.nodes, &[], &[(source, sink)]);
    (floor.arcs.len() == floor.belts).then_some(Network { arcs: floor.arcs, ..net })
}
