//! Floors as DIMACS files: sound ones in every layout that document 01 allows,
//! and damaged ones.

use crate::dimacs::LONGEST;
use crate::floors;
use crate::network::Network;
use crate::random::Random;

/// A file is its lines, each a list of words; blanks come when it is written.
type Line = Vec<Vec<u8>>;

fn line(words: &[&str]) -> Line {
    words.iter().map(|word| word.as_bytes().to_vec()).collect()
}

/// A floor with one pair; one in four is larger than small.
pub fn floor(random: &mut Random) -> Network {
    let mut net = if random.one_in(4) { floors::medium(random) } else { floors::small(random) };
    net.commodities.truncate(1);
    net
}

/// The p line, then n and a lines in any mixture with the belts in order, and
/// comments anywhere.
fn lines(net: &Network, random: &mut Random) -> Vec<Line> {
    let pair = net.commodities[0];
    let mut lines: Vec<Line> = net
        .arcs
        .iter()
        .map(|arc| {
            let [tail, head, capacity] =
                [arc.tail, arc.head, arc.capacity].map(|number| written(number, random));
            line(&["a", &tail, &head, &capacity])
        })
        .collect();
    for (node, letter) in [(pair.source, "s"), (pair.sink, "t")] {
        let at = if random.one_in(2) { 0 } else { random.index(lines.len() + 1) };
        lines.insert(at, line(&["n", &written(node, random), letter]));
    }
    let (n, m) = (written(net.nodes, random), written(net.arcs.len() as u64, random));
    lines.insert(0, line(&["p", "max", &n, &m]));
    for _ in 0..random.pick(&[0, 0, 1, 3]) {
        lines.insert(random.index(lines.len() + 1), comment(random));
    }
    lines
}

/// One time in eight with zeros before it.
fn written(number: u64, random: &mut Random) -> String {
    let width = if random.one_in(8) { random.between(1, 9) as usize } else { 1 };
    format!("{number:0width$}")
}

/// The letter, and after it any bytes that do not end the line.
fn comment(random: &mut Random) -> Line {
    let len = random.index(12);
    let mut bytes = random.bytes(len);
    bytes.retain(|byte| *byte != b'\n');
    bytes.insert(0, b'c');
    vec![bytes]
}

/// Mostly one space; else tabs and spaces, also at the end of a line.
fn bytes(lines: &[Line], random: &mut Random) -> Vec<u8> {
    let plain = random.one_in(2);
    let mut file = Vec::new();
    for line in lines {
        for (i, word) in line.iter().enumerate() {
            if i > 0 {
                file.extend(if plain { b" ".to_vec() } else { blanks(1, random) });
            }
            file.extend(word);
        }
        if !plain && random.one_in(4) {
            file.extend(blanks(0, random));
        }
        file.push(b'\n');
    }
    if random.one_in(4) {
        file.pop();
    }
    file
}

fn blanks(least: u64, random: &mut Random) -> Vec<u8> {
    (0..random.between(least, 3)).map(|_| random.pick(b" \t")).collect()
}

pub fn sound(random: &mut Random) -> Vec<u8> {
    let net = floor(random);
    let lines = lines(&net, random);
    bytes(&lines, random)
}

/// A sound file with one, two or three things changed; most, not all, are faults.
pub fn damaged(random: &mut Random) -> Vec<u8> {
    let mut net = floors::small(random);
    net.commodities.truncate(1);
    let mut lines = lines(&net, random);
    for _ in 0..random.between(0, 2) {
        damage_lines(&mut lines, random);
    }
    let mut file = bytes(&lines, random);
    if random.one_in(4) {
        damage_bytes(&mut file, random);
    }
    file
}

fn damage_lines(lines: &mut Vec<Line>, random: &mut Random) {
    if lines.is_empty() {
        return;
    }
    let (at, to) = (random.index(lines.len()), random.index(lines.len()));
    match random.index(10) {
        0 => drop(lines.remove(at)),
        1 => lines.insert(to, lines[at].clone()),
        2 => lines.swap(at, to),
        3 => lines.insert(at, Vec::new()),
        _ => damage_words(&mut lines[at], random),
    }
}

/// Numbers at and past the edges, then words that are none where one is wanted.
const NUMBERS: &str = "0 1 2 64 65 256 257 1000 1001 999999999 000000001";
const WORDS: &str =
    "0000000001 1000000000 18446744073709551617 -1 +1 1.0 1a p n a s t max min c st";

fn one_of(words: &str, random: &mut Random) -> Vec<u8> {
    let words: Vec<&str> = words.split(' ').collect();
    random.pick(&words).as_bytes().to_vec()
}

fn damage_words(line: &mut Line, random: &mut Random) {
    let word = one_of(if random.one_in(3) { WORDS } else { NUMBERS }, random);
    if line.is_empty() {
        return line.push(word);
    }
    let at = random.index(line.len());
    match random.index(12) {
        0 => drop(line.remove(at)),
        1 => line.insert(at, word),
        2 => line[at] = word,
        // Past the letter, so that the line is still of its kind.
        _ => match line.get_mut(at.max(1)) {
            Some(old) => *old = word,
            None => line.push(word),
        },
    }
}

/// Bytes next to those that the layout knows.
const BYTES: &[u8] = b"\n\r\t\x0b\x08 \0/0129:acnpstmxAZ!\x1f\x7f\x80\xff";

fn damage_bytes(file: &mut Vec<u8>, random: &mut Random) {
    let at = random.index(file.len() + 1);
    let byte = random.pick(BYTES);
    match random.index(5) {
        0 => file.truncate(at),
        1 => file.insert(at, byte),
        2 if at < file.len() => drop(file.remove(at)),
        3 => *file = file.iter().flat_map(|b| carriage_returned(*b)).collect(),
        _ if at < file.len() => file[at] = byte,
        _ => file.push(byte),
    }
}

fn carriage_returned(byte: u8) -> Vec<u8> {
    if byte == b'\n' {
        b"\r\n".to_vec()
    } else {
        vec![byte]
    }
}

/// A sound file made `len` bytes long by a comment, at its front or its end.
pub fn lengthened(len: usize, random: &mut Random) -> Vec<u8> {
    let mut net = floors::small(random);
    net.commodities.truncate(1);
    let plain = lines(&net, random);
    let mut file = bytes(&plain, random);
    if file.last() != Some(&b'\n') {
        file.push(b'\n');
    }
    let mut comment = vec![b'c'; len - file.len()];
    match random.one_in(2) {
        true => file.extend(comment),
        false => {
            *comment.last_mut().expect("room for a comment") = b'\n';
            file.splice(0..0, comment);
        }
    }
    file
}

/// The longest that passes, and one byte more.
pub const EDGES: [usize; 2] = [LONGEST, LONGEST + 1];
