//! What docs/GUARANTEE.md tells of figures outside of what it quotes.

use crate::rounded::Fraction;
use crate::shares::shares;
use crate::slip_floors::{merge, one_feeder, two_belts, two_feeders};
use crate::slipped::{run, run_seen, Run, Slip};
use crate::told::{printed, to_the_nearest};
use crate::{near, room};

/// The precision at which rounding a length down shows.
pub const SLIPPED: u64 = 16;

pub fn told() -> Vec<String> {
    let mut told = room::told();
    told.extend(for_e());
    told.extend(share_rows());
    told.extend(near::told());
    told.push(format!("{} where V is {}", to_the_nearest(), carried_whole()));
    told.extend(growth_down());
    told.extend(halving_down());
    told.extend(divided());
    told.extend(last_bound());
    told
}

/// Of the 5 in 8q + 5, what (1 + 1/q)^q lacks to e and what (65/64)^65 costs in its place, in
/// eighths of a power of 1 + 1/q and rounded up.
fn for_e() -> Vec<String> {
    let of_e = |q: f64| 8.0 / (1.0 / q).ln_1p();
    let lacks = |q| of_e(q) - 8.0 * q;
    let costs = |q| of_e(q) * (65.0 * (1.0_f64 / 64.0).ln_1p() - 1.0);
    let (most_lacking, most) = (lacks(16.0), costs(16.0));
    for q in (4..=16).map(f64::from) {
        assert!(lacks(q) < 4.0 && lacks(q) + costs(q) <= 5.0 && costs(q) <= most);
    }
    let up = |eighths: f64| format!("{:.2}", (eighths * 100.0).ceil() / 100.0);
    let (first, last, both) = (up(lacks(4.0)), up(most_lacking), up(most_lacking + most));
    vec![
        format!("lacks to e: {first} at q = 4 and {last} at q = 16"),
        format!("highest at q = 16, where it is {}; with the {last} it makes {both} of", up(most)),
    ]
}

/// The promises at each precision, rounded down to the fourth place.
fn share_rows() -> Vec<String> {
    let names = ["1 - 2/q", "1 - 7/(4q)", "(8q - 9)/(8q + 5)"];
    let cut = |[upper, lower]: [u64; 2]| format!(" {} |", Fraction::new(upper, lower).down(4));
    let row = |(i, name): (usize, &str)| {
        let shares: String = (4..=16).map(|q| cut(shares(q)[i].1)).collect();
        format!("| {name} |{shares}")
    };
    names.into_iter().enumerate().map(row).collect()
}

fn carried_whole() -> String {
    let printed = printed("whole");
    let line = printed.lines().find_map(|line| line.strip_prefix("the plan carries: "));
    line.expect("the plan is told").to_string()
}

/// Total over bound.
pub fn share(run: &Run) -> String {
    run.total().over(run.bound().fraction()).down(3)
}

/// What a promise has of it there.
pub fn promised(name: &str) -> String {
    let named = shares(SLIPPED).into_iter().find(|(other, _)| *other == name);
    let [upper, lower] = named.expect("there is such a promise").1;
    Fraction::new(upper, lower).down(4)
}

/// Choices over belt 1, each of which drew its capacity.
pub fn by_the_first(run: &Run) -> u64 {
    run.loads[0] / run.net.arcs[0].capacity
}

fn growth_down() -> Vec<String> {
    let net = two_feeders();
    let run = run(&net, SLIPPED, Slip::GrowthDown);
    let (share, near, closer) = (share(&run), promised("near"), promised("closer"));
    vec![
        format!("When both lengths are {} neither grows", run.lengths[0]),
        format!("After {} of them", by_the_first(&run)),
        format!("{} of a bound of {}", run.total().down(4), run.bound().fraction().up(4)),
        format!("a share of {share} where `near` promises {near} and `closer` {closer}"),
    ]
}

fn halving_down() -> Vec<String> {
    let net = one_feeder();
    let mut gone = None;
    let run = run_seen(&net, SLIPPED, Slip::HalvingDown, |run| {
        gone = gone.or((run.lengths[0] == 0).then_some(run.halvings));
    });
    let (total, bound) = (run.total().down(4), run.bound().fraction().up(4));
    vec![
        format!("After {} halvings it has none", gone.expect("a length comes to 0")),
        format!("{} choices over the feeder end the run", by_the_first(&run)),
        format!("{total} of {bound}, a share of {}", share(&run)),
    ]
}

fn divided() -> Vec<String> {
    let net = merge();
    let run = run(&net, 4, Slip::ScaleByMark);
    let (load, capacity) = (run.loads[2], net.arcs[2].capacity);
    vec![
        format!("a load of {load} where T * c is {}", run.mark * capacity),
        format!("{load} / {} is more than {capacity}", run.mark),
    ]
}

fn last_bound() -> Vec<String> {
    let net = two_belts();
    let run = run(&net, 4, Slip::LastBound);
    let (least, last) = (run.least.fraction().up(4), run.last.fraction().up(4));
    vec![
        format!("choice {} meets {least}", run.least.iteration),
        format!("the last choice meets {last}. The plan of {}", run.total().down(2)),
    ]
}
