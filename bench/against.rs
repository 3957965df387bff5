//! Times this tree's library and another archive's in turn, floor by floor, in one
//! process. Both are handed the same bytes. The ratio is that of their quickest
//! samples, as the others were disturbed by something else; where the middle one
//! of the ratios of all rounds is far from it, so were these. Where the two make
//! different counts of choices, their times a choice are compared. `--q N` keeps to
//! that precision (4, 8 and 16 otherwise), `--seed N` takes other floors, `--rounds N`
//! more samples, `--marked` makes all belts reversible, `--limited` limits all stations,
//! `--layout NAME` is another call of the other archive than this tree's.

// Of the comparison's modules not everything is needed here.
#![allow(dead_code)]

#[path = "../tests/second/call.rs"]
mod call;
mod clock;
#[path = "../tests/second/floors.rs"]
mod floors;
mod full;
mod layouts;
#[path = "../tests/second/network.rs"]
mod network;
#[path = "../tests/second/random.rs"]
mod random;
#[path = "../tests/second/shapes.rs"]
mod shapes;

use call::{get, Call};
use full::{floors_at, mean, precision, Kind};
use layouts::{Archive, Layout};
use std::process::ExitCode;
use std::time::{Duration, Instant};

/// A call is repeated for this long to make a sample, so that a short one is
/// not lost in the clock's own time.
const SAMPLE: Duration = Duration::from_millis(20);

/// Samples of each side: at least so many, and where they are short for so long.
const ROUNDS: usize = 5;
const REPEATED: Duration = Duration::from_secs(2);

struct Options {
    precisions: Vec<u64>,
    seed: u64,
    rounds: usize,
    layout: Layout,
    kind: Kind,
}

fn main() -> ExitCode {
    let Some(options) = options(std::env::args().skip(1)) else {
        eprint!("bench: with --against the options are --q NUMBER, --seed NUMBER, ");
        eprint!("--rounds NUMBER (from {ROUNDS}), --marked, --limited and --layout base ");
        eprintln!("(without these two), marks (without --limited) or limits");
        return ExitCode::from(2);
    };
    let floors = options.kind.described(options.seed);
    println!("{floors}; here is this tree, there the other archive");
    for q in &options.precisions {
        compare(*q, &options);
    }
    ExitCode::SUCCESS
}

fn options(mut words: impl Iterator<Item = String>) -> Option<Options> {
    let (precisions, layout) = (Vec::new(), Layout::HERE);
    let kind = Kind::default();
    let mut options = Options { precisions, seed: 1, rounds: ROUNDS, layout, kind };
    while let Some(word) = words.next() {
        match word.as_str() {
            "--q" => options.precisions.push(precision(&words.next()?)?),
            "--seed" => options.seed = words.next()?.parse().ok()?,
            "--rounds" => options.rounds = rounds(&words.next()?)?,
            "--layout" => options.layout = Layout::named(&words.next()?)?,
            "--marked" => options.kind.marked = true,
            "--limited" => options.kind.limited = true,
            _ => return None,
        }
    }
    if options.precisions.is_empty() {
        options.precisions = full::PRECISIONS.into();
    }
    options.layout.has(options.kind).then_some(options)
}

fn rounds(word: &str) -> Option<usize> {
    word.parse().ok().filter(|rounds| *rounds >= ROUNDS)
}

fn compare(q: u64, options: &Options) {
    println!();
    let heads = ["floor", "q", "choices here", "choices there", "here ms", "there ms"];
    show_line(heads.map(String::from), ["here/there", "middle"].map(String::from), "");
    let mut rows = Vec::new();
    for (name, floor) in floors_at(q, options.seed, options.kind) {
        let row = measure(name, &floor, options);
        row.show(q);
        rows.push(row);
    }
    show_ratios(q, &rows);
    show_differences(&rows);
}

/// What an archive did on a floor, and the milliseconds of a call.
struct Side {
    ms: f64,
    returned: u64,
    after: Call,
}

/// The quickest sample of each side, and the middle one of all rounds' ratios.
struct Row {
    name: String,
    here: Side,
    there: Side,
    middle: f64,
    same_layout: bool,
}

/// In turn, so that what slows the machine for a while slows both.
fn measure(name: String, floor: &Call, options: &Options) -> Row {
    let archives = (Archive::here(), Archive::there(options.layout));
    let round = || (sample(&archives.0, floor), sample(&archives.1, floor));
    let began = Instant::now();
    let (mut here, mut there) = round();
    let mut ratios = vec![here.ms / there.ms];
    while ratios.len() < options.rounds || began.elapsed() < REPEATED {
        let (next_here, next_there) = round();
        ratios.push(next_here.ms / next_there.ms);
        here.ms = here.ms.min(next_here.ms);
        there.ms = there.ms.min(next_there.ms);
    }
    ratios.sort_by(f64::total_cmp);
    let middle = ratios[ratios.len() / 2];
    Row { name, here, there, middle, same_layout: options.layout == Layout::HERE }
}

/// Each call on a fresh copy, the tables zero.
fn sample(archive: &Archive, floor: &Call) -> Side {
    let mut took = Duration::ZERO;
    let mut calls = 0;
    loop {
        let mut after = floor.clone();
        let run = archive.solve(&mut after);
        took += run.took;
        calls += 1;
        if took >= SAMPLE {
            let ms = took.as_secs_f64() * 1000.0 / f64::from(calls);
            return Side { ms, returned: run.returned, after };
        }
    }
}

impl Side {
    fn choices(&self) -> u64 {
        get(&self.after.answer, 5)
    }
}

impl Row {
    fn refused(&self) -> bool {
        self.here.returned != 0 || self.there.returned != 0
    }

    fn counts_differ(&self) -> bool {
        !self.refused() && self.here.choices() != self.there.choices()
    }

    /// Apart from the counts. Tables of another layout may differ where both are right.
    fn tables_differ(&self) -> bool {
        let same = self.here.after == self.there.after;
        self.same_layout && !self.refused() && !self.counts_differ() && !same
    }

    /// Of the quickest samples and in the middle, a choice where the counts differ;
    /// none where one side refused, or alone made no choice.
    fn ratios(&self) -> Option<[f64; 2]> {
        let choices = match self.counts_differ() {
            true => self.there.choices() as f64 / self.here.choices() as f64,
            false => 1.0,
        };
        let comparable = !self.refused() && choices > 0.0 && choices.is_finite();
        comparable.then_some([self.here.ms / self.there.ms, self.middle].map(|r| r * choices))
    }

    fn note(&self) -> String {
        match self {
            Row { here, there, .. } if self.refused() => {
                format!("returned {} here, {} there", here.returned, there.returned)
            }
            _ if self.counts_differ() => "of the time a choice".into(),
            _ if self.tables_differ() => "other answer or tables".into(),
            _ => String::new(),
        }
    }

    fn show(&self, q: u64) {
        let Row { name, here, there, .. } = self;
        let ms = |side: &Side| format!("{:.2}", side.ms);
        let choices = |side: &Side| side.choices().to_string();
        let cells =
            [name.clone(), q.to_string(), choices(here), choices(there), ms(here), ms(there)];
        let none = ["-", "-"].map(String::from);
        let ratios = self.ratios().map_or(none, |ratios| ratios.map(|ratio| format!("{ratio:.3}")));
        show_line(cells, ratios, &self.note());
    }
}

fn show_line(cells: [String; 6], [ratio, middle]: [String; 2], note: &str) {
    let [floor, q, here, there, here_ms, there_ms] = cells;
    let choices = format!("{here:>12} {there:>13}");
    let times = format!("{here_ms:>9} {there_ms:>9} {ratio:>10} {middle:>7}");
    println!("{}", format!("{floor:<12} {q:>2} {choices} {times}  {note}").trim_end());
}

fn show_ratios(q: u64, rows: &[Row]) {
    let ratios: Vec<([f64; 2], &Row)> =
        rows.iter().filter_map(|row| Some((row.ratios()?, row))).collect();
    let Some(([greatest, _], row)) = ratios.iter().max_by(|a, b| a.0[0].total_cmp(&b.0[0])) else {
        println!("at q {q} no floor can be compared");
        return;
    };
    let [ratio, middle] = [0, 1].map(|which| mean(ratios.iter().map(|(both, _)| both[which])));
    print!("geometric mean at q {q}: here/there {ratio:.3}, middle {middle:.3}; ");
    println!("the greatest here/there is {greatest:.3}, on {}", row.name);
}

/// No failure: a change may be meant to give other answers.
fn show_differences(rows: &[Row]) {
    let counts = rows.iter().filter(|row| row.counts_differ()).count();
    let tables = rows.iter().filter(|row| row.tables_differ()).count();
    let floors = rows.len();
    if counts > 0 {
        println!("NOTE: on {counts} of {floors} floors the counts of choices differ");
    }
    if tables > 0 {
        print!("NOTE: on {tables} of {floors} floors the answers or tables differ, ");
        println!("though the counts of choices do not");
    }
}
