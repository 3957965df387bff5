//! Holds total and bound against GLPK's optimum, which must lie between them, on small
//! floors with no, some and all belts reversible (request C-12) and stations limited
//! (C-17) and several pairs: those of the second solver and those of the library. Models and reports are written
//! into the folder that is named first. `--forms` leaves the library out, `--seed N`
//! takes other floors. Exits with 1 if an optimum lies elsewhere.

// Of the shared modules only a part is used here.
#![allow(dead_code)]

mod call;
mod fast;
mod floors;
mod guarded;
mod library;
mod limits;
mod method;
mod model;
mod network;
mod random;
mod reversible;
mod search;
mod shapes;
mod site;
mod whole;

use call::{numbers, Call};
use floors::PRECISIONS;
use limits::{Stations, STATIONS};
use model::Reading;
use network::Network;
use random::Random;
use reversible::{Share, SHARES};
use std::io::{Error, Result};
use std::process::{Command, ExitCode, Stdio};

const FLOORS: u64 = 1_560;

/// GLPK prints ten digits.
const ROUNDING: f64 = 1e-6;

struct Options {
    folder: String,
    forms: bool,
    seed: u64,
}

#[derive(Default)]
struct Tally {
    joined: u64,
    unjoined: u64,
    /// Joined floors with limits.
    limited: u64,
    /// Floors on which two opposite belts in place of a reversible one, each of the full
    /// capacity, would carry more than the bound.
    overstated: u64,
    /// Floors on which the belts, taken one way only, would carry less than the total.
    understated: u64,
    /// Floors that without their limits would carry more than the bound, and such that
    /// would if a limit did not count the pairs that start or end there.
    unlimited: u64,
    passing: u64,
    /// Floors that would carry less than the total if what enters a limited station and
    /// what leaves it counted both.
    twice: u64,
    faults: u64,
}

fn main() -> Result<ExitCode> {
    let Some(options) = options(std::env::args().skip(1)) else {
        eprintln!("lp: name a folder to write to; the options are --forms and --seed NUMBER");
        return Ok(ExitCode::from(2));
    };
    let (mut random, mut tally) = (Random::new(options.seed), Tally::default());
    let kinds = STATIONS.into_iter().flat_map(|stations| SHARES.map(|share| (stations, share)));
    for ((_, q), (stations, share)) in (0..FLOORS).zip(PRECISIONS.cycle()).zip(kinds.cycle()) {
        let net = floor(stations, share, &mut random);
        tally.hold(&net, q, &options)?;
    }
    Ok(tally.close())
}

fn options(mut words: impl Iterator<Item = String>) -> Option<Options> {
    let mut options = Options { folder: words.next()?, forms: false, seed: 1 };
    while let Some(word) = words.next() {
        match word.as_str() {
            "--forms" => options.forms = true,
            "--seed" => options.seed = words.next()?.parse().ok()?,
            _ => return None,
        }
    }
    Some(options)
}

/// One in four has one pair whose draws may cancel, if belts are reversible at all.
fn floor(stations: Stations, share: Share, random: &mut Random) -> Network {
    let net = if share != Share::None && random.one_in(4) {
        reversible::one_pair(random)
    } else {
        reversible::marked(floors::small(random), share, random)
    };
    let net = if random.one_in(2) { reversible::both_ways(net) } else { net };
    limits::limited(net, stations, random)
}

/// Total and bound of an answer.
fn figures(answer: &[u64]) -> (f64, f64) {
    let [drawn, capacity, load, weight, alpha] = [0, 1, 2, 3, 4].map(|i| answer[i] as f64);
    (drawn * capacity / load, weight / alpha)
}

fn not_above(a: f64, b: f64) -> bool {
    a <= b * (1.0 + ROUNDING)
}

impl Tally {
    fn hold(&mut self, net: &Network, q: u64, options: &Options) -> Result<()> {
        let solution = fast::solve(net, q);
        let (total, bound) = figures(&solution.answer);
        let most = optimum(net, Reading::Right, &options.folder)?;
        match solution.answer[5] {
            0 => self.unjoined += 1,
            _ => self.joined += 1,
        }
        self.judge(most, total, bound, "second solver", net);
        if !options.forms {
            let (total, bound) = by_library(net, q)?;
            self.judge(most, total, bound, "library", net);
        }
        let by = |net: &Network, reading| optimum(net, reading, &options.folder);
        if net.arcs.iter().any(|arc| arc.reversible()) {
            self.overstated += u64::from(!not_above(by(net, Reading::Apart)?, bound));
            let most = by(&one_way(net), Reading::Right)?;
            self.understated += u64::from(!not_above(total, most));
        }
        if solution.answer[5] > 0 && net.limited_nodes().next().is_some() {
            self.limited += 1;
            let most = by(&net.clone().limited(&[]), Reading::Right)?;
            self.unlimited += u64::from(!not_above(most, bound));
            self.passing += u64::from(!not_above(by(net, Reading::Passing)?, bound));
            self.twice += u64::from(!not_above(total, by(net, Reading::Twice)?));
        }
        Ok(())
    }

    fn judge(&mut self, most: f64, total: f64, bound: f64, whose: &str, net: &Network) {
        if !(not_above(total, most) && not_above(most, bound)) {
            self.faults += 1;
            println!("lp: {most} is not between the {whose}'s total {total} and bound {bound}:");
            println!("  {net:?}");
        }
    }

    /// Floors of each kind have to be met: else these show too little.
    fn close(&self) -> ExitCode {
        let Tally { joined, unjoined, limited, overstated, understated, .. } = *self;
        let Tally { unlimited, passing, twice, faults, .. } = *self;
        println!(
            "lp: optimum between total and bound on {} floors ({joined} joined, {limited} of them \
             with limits, {unjoined} not), {faults} faults",
            joined + unjoined
        );
        println!(
            "lp: two opposite belts for a reversible one would carry more than the bound on \
             {overstated}, one belt less than the total on {understated}"
        );
        println!(
            "lp: without limits more than the bound could be carried on {unlimited}, with limits for \
             what passes alone on {passing}; counting what enters and what leaves, less than the \
             total on {twice}"
        );
        let seen = [joined, unjoined, overstated, understated, unlimited, passing, twice];
        let met = seen.iter().all(|floors| *floors > 0);
        ExitCode::from(u8::from(faults > 0 || !met))
    }
}

fn one_way(net: &Network) -> Network {
    let mut net = net.clone();
    net.arcs.iter_mut().for_each(|arc| arc.mark = 0);
    net
}

fn by_library(net: &Network, q: u64) -> Result<(f64, f64)> {
    let (returned, after) = guarded::call_library(&Call::new(net, q)).map_err(Error::other)?;
    match returned {
        0 => Ok(figures(&numbers(&after.answer))),
        _ => Err(Error::other(format!("the library returned {returned}"))),
    }
}

fn optimum(net: &Network, reading: Reading, folder: &str) -> Result<f64> {
    let [model, report] = ["floor.lp", "report"].map(|name| format!("{folder}/{name}"));
    std::fs::write(&model, model::written(net, reading))?;
    let mut glpsol = Command::new("glpsol");
    let status = glpsol.args(["--lp", &model, "-o", &report]).stdout(Stdio::null()).status()?;
    let text = std::fs::read_to_string(&report)?;
    let optimal = text.lines().any(|line| line.split_whitespace().eq(["Status:", "OPTIMAL"]));
    let objective = text.lines().find_map(|line| line.strip_prefix("Objective:  total = "));
    let number = objective.and_then(|line| line.split(' ').next()?.parse().ok());
    let found = number.filter(|_| status.success() && optimal);
    found.ok_or(Error::other("glpsol gives no optimum"))
}
