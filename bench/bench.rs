//! Times the static library against both forms of the second solver on
//! full-size floors, in one run: each is handed the same bytes and writes the
//! same tables. Tells besides how much of its bound a total was at least. Exits with
//! 1 if the tables differ or the stack grows too deep.
//! `--q N` keeps to that precision (4, 8 and 16 otherwise), `--fast` leaves the
//! plain form out, `--seed N` takes other floors, `--marked` makes all their belts
//! reversible and `--limited` limits all their stations; both leave the plain form out.

// Of the comparison's modules not everything is needed here.
#![allow(dead_code)]

#[path = "../tests/second/call.rs"]
mod call;
#[path = "../tests/second/fast.rs"]
mod fast;
#[path = "../tests/second/floors.rs"]
mod floors;
mod full;
mod lend;
#[path = "../tests/second/library.rs"]
mod library;
#[path = "../tests/second/method.rs"]
mod method;
#[path = "../tests/second/network.rs"]
mod network;
#[path = "../tests/second/random.rs"]
mod random;
#[path = "../tests/second/search.rs"]
mod search;
#[path = "../tests/second/shapes.rs"]
mod shapes;
#[path = "../tests/second/solver.rs"]
mod solver;
mod stack;

use call::{get, Call};
use full::{floors_at, mean, precision, Kind};
use std::process::ExitCode;
use std::time::{Duration, Instant};

/// Short runs are repeated for this long, and the quickest counts: the others
/// were held up by something else.
const REPEATED: Duration = Duration::from_millis(300);

const MOST_STACK: usize = 256 * 1024;

struct Options {
    precisions: Vec<u64>,
    plain: bool,
    seed: u64,
    kind: Kind,
}

struct Times {
    library: f64,
    fast: f64,
    plain: Option<f64>,
}

fn main() -> ExitCode {
    let Some(options) = options(std::env::args().skip(1)) else {
        eprint!("bench: the options are --q NUMBER, --fast, --seed NUMBER, --marked and ");
        eprintln!("--limited");
        return ExitCode::from(2);
    };
    let floors = options.kind.described(options.seed);
    println!("{floors}; each run on a fresh copy, tables zero");
    let shallow = report_stack(&options);
    let mut alike = true;
    for q in &options.precisions {
        alike &= bench(*q, &options);
    }
    ExitCode::from(u8::from(!(alike && shallow)))
}

fn options(mut words: impl Iterator<Item = String>) -> Option<Options> {
    let kind = Kind::default();
    let mut options = Options { precisions: Vec::new(), plain: true, seed: 1, kind };
    while let Some(word) = words.next() {
        match word.as_str() {
            "--q" => options.precisions.push(precision(&words.next()?)?),
            "--seed" => options.seed = words.next()?.parse().ok()?,
            "--fast" => options.plain = false,
            "--marked" => options.kind.marked = true,
            "--limited" => options.kind.limited = true,
            _ => return None,
        }
    }
    if options.precisions.is_empty() {
        options.precisions = full::PRECISIONS.into();
    }
    options.plain &= !options.kind.marked && !options.kind.limited;
    Some(options)
}

fn bench(q: u64, options: &Options) -> bool {
    println!("\n### {}q = {q}\n", options.kind.named());
    show_head(options.plain);
    let (mut rows, mut shares) = (Vec::new(), Vec::new());
    let mut alike = true;
    let mut different = Vec::new();
    for (name, call) in floors_at(q, options.seed, options.kind) {
        let (times, same, tables) = measure(&call, options.plain);
        show(&name, get(&tables.answer, 5), &times);
        if !same {
            different.push(name.clone());
            alike = false;
        }
        rows.push(times);
        shares.push((share(&tables), name));
    }
    show_means(&rows);
    println!();
    for name in different {
        println!("DIFFERENT {name}: the library's tables are not the second solver's");
    }
    show_least(q, shares);
    alike
}

fn measure(call: &Call, plain: bool) -> (Times, bool, Call) {
    let (library, found) = quickest(|| solve(call.clone()));
    let (fast, wanted) = quickest(|| call.answered(fast::solve).1);
    let (plain, same_plain) = match plain {
        true => {
            let (time, tables) = quickest(|| call.answered(solver::solve).1);
            (Some(time), tables == wanted)
        }
        false => (None, true),
    };
    (Times { library, fast, plain }, found == wanted && same_plain, found)
}

/// V over B in ten thousandths, rounded down; on each of these floors some pair is joined.
fn share(tables: &Call) -> u128 {
    let [drawn, capacity, load, d, alpha] =
        [0, 1, 2, 3, 4].map(|i| u128::from(get(&tables.answer, i)));
    10_000 * drawn * capacity * alpha / (d * load)
}

fn solve(mut call: Call) -> Call {
    lend::solve_in(&mut call);
    call
}

fn whole(mut call: Call) -> Call {
    // two numbers for each pair, as many as name the pair
    let mut totes = vec![0; call.pairs.len()];
    lend::whole_in(&mut call, &mut totes);
    call
}

fn site(mut call: Call) -> Call {
    lend::site_in(&mut call);
    call
}

/// Milliseconds of the quickest run, and what it gave.
fn quickest(run: impl Fn() -> Call) -> (f64, Call) {
    let started = Instant::now();
    let mut best = f64::INFINITY;
    loop {
        let this = Instant::now();
        let result = run();
        best = best.min(this.elapsed().as_secs_f64() * 1000.0);
        if started.elapsed() >= REPEATED {
            return (best, result);
        }
    }
}

/// The rows are those of a Markdown table, as docs/SPEED.md has them.
fn show_row(cells: Vec<String>) {
    println!("| {} |", cells.join(" | "));
}

fn show_head(plain: bool) {
    let mut cells = vec!["floor", "choices", "library, ms", "fast form, ms", "library / fast"];
    if plain {
        cells.extend(["plain form, ms", "plain / library"]);
    }
    println!("| {} |", cells.join(" | "));
    println!("|{}", "---|".repeat(cells.len()));
}

fn show(name: &str, choices: u64, times: &Times) {
    let Times { library, fast, plain } = *times;
    let mut cells = vec![name.to_string(), grouped(choices), ms(library), ms(fast)];
    cells.push(format!("{:.2}", library / fast));
    if let Some(plain) = plain {
        cells.extend([ms(plain), format!("{:.1}", plain / library)]);
    }
    show_row(cells);
}

fn ms(time: f64) -> String {
    format!("{time:.1}")
}

/// With a comma before each three digits.
fn grouped(number: u64) -> String {
    match number {
        0..=999 => number.to_string(),
        _ => format!("{},{:03}", grouped(number / 1000), number % 1000),
    }
}

fn show_means(rows: &[Times]) {
    let level = mean(rows.iter().map(|times| times.library / times.fast));
    let mut cells = ["geometric mean", "", "", ""].map(String::from).to_vec();
    cells.push(format!("{level:.2}"));
    if rows.iter().all(|times| times.plain.is_some()) {
        let gain = mean(rows.iter().filter_map(|times| Some(times.plain? / times.library)));
        cells.extend([String::new(), format!("{gain:.1}")]);
    }
    show_row(cells);
}

fn show_least(q: u64, shares: Vec<(u128, String)>) {
    if let Some((share, name)) = shares.into_iter().min() {
        println!("least V / B at q {q}: {}.{:04} on {name}", share / 10_000, share % 10_000);
    }
}

/// The deepest of one run of each call on each floor: what is on the stack does not
/// depend on the precision.
fn report_stack(options: &Options) -> bool {
    let calls = floors_at(4, options.seed, options.kind).into_iter();
    let depths = calls.flat_map(|(_, call)| {
        [solve, whole, site].map(|run| {
            let call = call.clone();
            stack::depth_of(move || drop(run(call)))
        })
    });
    match depths.collect::<std::io::Result<Vec<usize>>>() {
        Ok(depths) => {
            let deepest = depths.into_iter().max().unwrap_or(0);
            println!("peak stack of a call: at most {} KiB", deepest / 1024);
            deepest < MOST_STACK
        }
        Err(error) => {
            println!("peak stack of a call: not measured, {error}");
            false
        }
    }
}
