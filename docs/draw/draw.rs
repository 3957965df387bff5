//! Draws the pictures of the pages: `draw NAME` prints one as SVG. Where stations stand and
//! what they are called is written down here; every figure is read from what the programs
//! print, or is of a run of the second solver.

// Of the second solver's modules not everything is needed here.
#![allow(dead_code)]

#[path = "../../tests/second/call.rs"]
mod call;
#[path = "../../tests/second/dimacs.rs"]
mod dimacs;
mod figures;
mod floor;
#[path = "../../tests/second/method.rs"]
mod method;
#[path = "../../tests/second/network.rs"]
mod network;
mod pictures;
mod places;
mod plot;
mod points;
#[path = "../../tests/second/rounded.rs"]
mod rounded;
mod sides;
#[path = "../../tests/second/slipped.rs"]
mod slipped;
#[path = "../../tests/second/solver.rs"]
mod solver;
mod svg;

use std::process::ExitCode;

fn main() -> ExitCode {
    let name = std::env::args().nth(1).unwrap_or_default();
    let picture = match name.as_str() {
        "levels" => pictures::levels(),
        "one_by_one" => pictures::one_by_one(),
        "sides" => sides::sides(),
        "stuck" => pictures::stuck(),
        "two_docks" => pictures::two_docks(),
        _ => {
            eprintln!("draw: name one of levels, one_by_one, sides, stuck, two_docks");
            return ExitCode::from(2);
        }
    };
    print!("{picture}");
    ExitCode::SUCCESS
}
