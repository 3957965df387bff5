//! The figures that pages tell in sentences of their own, worked out again by the second
//! solver (`told`). docs/figures.txt holds them as they stood when they were last put into
//! the pages, a line for each, `PAGE: TEXT`. Without an argument, each that has come out
//! otherwise is put in its place, and named; with `--check` nothing is written, and the exit
//! status is 1 if one has, or if a page does not say it.

// Of the shared modules only a part is used here.
#![allow(dead_code)]

mod call;
mod course;
mod dimacs;
mod fast;
mod floors;
#[path = "../../bench/full.rs"]
mod full;
mod guarantee;
mod listed;
mod method;
mod near;
mod network;
mod random;
mod room;
mod rounded;
mod search;
mod shapes;
mod shares;
mod slip_floors;
mod slipped;
mod solver;
mod told;

use std::fs;
use std::ops::Range;
use std::process::ExitCode;

const STORED: &str = "docs/figures.txt";

fn main() -> ExitCode {
    let check = std::env::args().nth(1).is_some_and(|word| word == "--check");
    let told: Vec<String> =
        told::all().iter().map(|(page, text)| format!("{page}: {text}")).collect();
    let stored = fs::read_to_string(STORED).unwrap_or_default();
    let before: Vec<&str> = stored.lines().collect();
    let faults = if before.len() == told.len() {
        let put = |(was, is): (&&str, &String)| put(was, is, check).err();
        before.iter().zip(&told).filter_map(put).collect()
    } else {
        // Which figure was which is not known then: a new one is put into its page by hand.
        told.iter().filter_map(|line| put(line, line, check).err()).collect::<Vec<_>>()
    };
    faults.iter().for_each(|fault| println!("figures: {fault}"));
    let lines = told.join("\n") + "\n";
    let changed = stored != lines;
    if changed && check {
        println!("figures: {STORED} has to be made again");
    } else if changed && faults.is_empty() {
        fs::write(STORED, lines).expect("the figures can be written");
    }
    println!("figures: {} told in sentences, {} faults", told.len(), faults.len());
    ExitCode::from(u8::from(!faults.is_empty() || (check && changed)))
}

/// Puts a figure in the place of what it was. An error says what a person has to do.
fn put(was: &str, is: &str, check: bool) -> Result<(), String> {
    let (page, is) = is.split_once(": ").expect("a page is named");
    let (_, was) = was.split_once(": ").ok_or_else(|| format!("{STORED}: no page in {was}"))?;
    let text = fs::read_to_string(page).map_err(|why| format!("{page}: {why}"))?;
    let sought = if check { is } else { was };
    let place = find(&text, sought).ok_or_else(|| format!("{page} does not say: {sought}"))?;
    if was == is || check {
        return Ok(());
    }
    let new = replaced(&text[place.clone()], is)
        .ok_or_else(|| format!("{page}: by hand, in place of {was}: {is}"))?;
    println!("figures: {page}: {was} is now {is}");
    fs::write(page, [&text[..place.start], &new, &text[place.end..]].concat())
        .map_err(|why| format!("{page}: {why}"))
}

/// What parts words, so that a line may break anywhere: blanks, and what leads a line of a
/// quotation or of a comment in C. A `*` between numbers then parts them too, in the page and
/// in what is sought alike.
fn parts(c: char) -> bool {
    c.is_whitespace() || c == '>' || c == '*'
}

/// Where a text stands, by its words, the first and the last of which may have something
/// before or behind them.
fn find(page: &str, text: &str) -> Option<Range<usize>> {
    let words: Vec<&str> = text.split(parts).filter(|word| !word.is_empty()).collect();
    let starts = page.match_indices(words[0]).map(|(at, _)| at);
    starts.into_iter().find_map(|start| Some(start..follow(page, start, &words)?))
}

/// The end of these words if they stand there, one after the other.
fn follow(page: &str, start: usize, words: &[&str]) -> Option<usize> {
    let mut at = start;
    for (i, word) in words.iter().enumerate() {
        let rest = page[at..].trim_start_matches(parts);
        if i > 0 && rest.len() == page.len() - at {
            return None;
        }
        at = page.len() - rest.strip_prefix(word)?.len();
    }
    Some(at)
}

/// The new words in the place of the old ones, what parts them as it was; only where they
/// are as many.
fn replaced(piece: &str, new: &str) -> Option<String> {
    let mut words = new.split(parts).filter(|word| !word.is_empty());
    let mut result = String::new();
    let mut rest = piece;
    while !rest.is_empty() {
        let gap = rest.find(|c| !parts(c)).unwrap_or(rest.len());
        let end = rest[gap..].find(parts).map_or(rest.len(), |end| gap + end);
        result += &rest[..gap];
        if end > gap {
            result += words.next()?;
        }
        rest = &rest[end..];
    }
    words.next().is_none().then_some(result)
}
