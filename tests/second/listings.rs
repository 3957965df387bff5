//! Feeds the listing program and the second solver the same files, sound and
//! damaged, and compares what they write byte by byte; exits with 1 on any
//! difference. With `--list` it writes the second solver's own listing of
//! standard input: that is where stored listings come from.

// Of the shared modules only a part is used here.
#![allow(dead_code)]

mod call;
mod dimacs;
mod fast;
mod files;
mod floors;
mod listing;
mod method;
mod network;
mod random;
mod search;
mod shapes;
mod solver;

use listing::listing;
use network::{Network, Solution};
use random::Random;
use std::io::{Read, Result, Write};
use std::process::{Command, ExitCode, Stdio};

const SOUND: u64 = 1_500;
const DAMAGED: u64 = 3_000;
const LONG: u64 = 20;

/// Differences beyond these are only counted.
const SHOWN: usize = 10;

fn main() -> Result<ExitCode> {
    match std::env::args().nth(1) {
        Some(word) if word == "--list" => list(),
        Some(program) => compare(&program),
        None => {
            eprintln!("listings: name the listing program, or --list");
            Ok(ExitCode::from(2))
        }
    }
}

fn list() -> Result<ExitCode> {
    let mut file = Vec::new();
    std::io::stdin().read_to_end(&mut file)?;
    std::io::stdout().write_all(&listing(&file, solver::solve))?;
    Ok(ExitCode::SUCCESS)
}

#[derive(Default)]
struct Tally {
    planned: u64,
    refused: [u64; 12],
    differences: usize,
}

fn compare(program: &str) -> Result<ExitCode> {
    let mut tally = Tally::default();
    let mut random = Random::new(5);
    for i in 0..SOUND {
        // The plain form now and then, where it is quick enough.
        let solve = if i % 8 == 0 { solver::solve } else { fast::solve };
        tally.compare(program, &files::sound(&mut random), solve)?;
    }
    for _ in 0..DAMAGED {
        tally.compare(program, &files::damaged(&mut random), solver::solve)?;
    }
    for _ in 0..LONG {
        for len in files::EDGES {
            tally.compare(program, &files::lengthened(len, &mut random), solver::solve)?;
        }
    }
    tally.close()
}

impl Tally {
    fn compare(
        &mut self,
        program: &str,
        file: &[u8],
        solve: fn(&Network, u64) -> Solution,
    ) -> Result<()> {
        match listing::accepted(file) {
            Ok(_) => self.planned += 1,
            Err(refusal) => self.refused[refusal.number as usize] += 1,
        }
        let (wanted, found) = (listing(file, solve), run(program, file)?);
        if wanted != found {
            self.differences += 1;
            if self.differences <= SHOWN {
                println!("DIFFERENT: file {:?}", String::from_utf8_lossy(file));
                println!("  wanted {:?}", String::from_utf8_lossy(&wanted));
                println!("  found  {:?}", String::from_utf8_lossy(&found));
            }
        }
        Ok(())
    }

    /// A comparison that never met one of the refusals shows nothing about it.
    fn close(&self) -> Result<ExitCode> {
        let refused: u64 = self.refused.iter().sum();
        println!(
            "listings: {} files ({} listed, {refused} refused), {} differences",
            self.planned + refused,
            self.planned,
            self.differences
        );
        println!("refusals by number from 1: {:?}", &self.refused[1..]);
        let met = [1, 2, 6, 7, 8, 9, 10].iter().all(|number| self.refused[*number] > 0);
        Ok(ExitCode::from(u8::from(self.differences > 0 || !met || self.planned == 0)))
    }
}

/// A program may stop reading once it knows that a file is too long.
fn run(program: &str, file: &[u8]) -> Result<Vec<u8>> {
    let mut child = Command::new(program).stdin(Stdio::piped()).stdout(Stdio::piped()).spawn()?;
    let mut input = child.stdin.take().expect("piped");
    let _ = input.write_all(file);
    drop(input);
    let mut found = Vec::new();
    child.stdout.take().expect("piped").read_to_end(&mut found)?;
    child.wait()?;
    Ok(found)
}
