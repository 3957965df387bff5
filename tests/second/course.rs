//! What docs/COURSE.md tells of figures.

use crate::guarantee::{by_the_first, promised, share, SLIPPED};
use crate::listed::{listed, most, Listed};
use crate::rounded::Fraction;
use crate::slip_floors::two_feeders;
use crate::slipped::{run, Slip};
use crate::told::printed;

pub fn told() -> Vec<String> {
    let mut told = two_lines(&listed("two_lines"));
    told.extend(cross(&listed("cross")));
    told.push(one_by_one());
    told.extend(slips());
    told.extend(feeders(&listed("feeders")));
    told.extend(printing(listed("feeders").total(), listed("two_lines").bound()));
    told
}

fn two_lines(floor: &Listed) -> Vec<String> {
    let (total, bound) = (floor.total(), floor.bound());
    let per_cent = total.over(bound).over(Fraction::new(1_u64, 100_u64));
    let carry = |belt| format!("{} of {}", floor.over(floor.belt(belt)), floor.capacity(belt));
    vec![
        format!("a line of 150 by station 3. It could carry {}.", most(&floor.net)),
        format!("Total {}, bound {}", floor.over(floor.upper()), floor.bound_fraction()),
        format!("could carry from {} to {}", total.down(3), bound.up(3)),
        format!("at least {} per cent of the best", per_cent.down(1)),
        format!("by station 3 carry {}", carry(3)),
        format!("by station 2 carry {}", carry(1)),
    ]
}

fn cross(floor: &Listed) -> Vec<String> {
    let most = most(&floor.net);
    let share = floor.total().over(Fraction::new(most, 1_u64)).down(3);
    let room = floor.capacity(2) * floor.lower() - floor.belt(2);
    vec![
        format!("all of 100. It could carry {most}."),
        format!("| the listing's | {} | {share} |", floor.over(floor.upper())),
        format!("Bound {}", floor.bound_fraction()),
        format!("has the row {}/{}", floor.belt(3), floor.lower()),
        format!("carries {} of {}", floor.over(floor.belt(2)), floor.capacity(2)),
        format!("and {} more would fit", Fraction::new(room, floor.lower()).short()),
    ]
}

fn one_by_one() -> String {
    let printed = printed("one_by_one");
    let after = |word| printed.lines().find_map(|line| line.strip_prefix(word));
    let (bound, sum) = after("bound ").zip(after("added up ")).expect("both are printed");
    format!("more than {bound}, so there is no plan of {}", sum.trim_end_matches(".000"))
}

fn slips() -> Vec<String> {
    let net = two_feeders();
    let [right, slipped] = [Slip::None, Slip::GrowthDown].map(|slip| run(&net, SLIPPED, slip));
    let (length, choices) = (slipped.lengths[0], by_the_first(&slipped));
    let (total, share, promised) = (slipped.total(), share(&slipped), promised("closer"));
    let bound = right.bound().fraction();
    vec![
        format!("gives {} with the bound {}", right.total().down(4), bound.up(4)),
        format!("total is {}, a share of {share} where {promised} is", total.down(4)),
        format!("once its length is {length}, the feeder of 3 takes {choices} choices"),
    ]
}

/// Belts rounded to the nearest tote no longer balance at station 2.
fn feeders(floor: &Listed) -> Vec<String> {
    let [line, other] = [3, 4].map(|belt| floor.belt(belt));
    let [one, each] = [3, 4].map(|belt| nearest(floor.carried(belt), 1));
    let (enter, leave) = (nearest(floor.total(), 1), one + 4 * each);
    vec![
        format!("It could carry {}.", most(&floor.net)),
        format!("total {}, bound {}", floor.over(floor.upper()), floor.bound_fraction()),
        format!("the slow one {}/{}", floor.belt(1), floor.lower()),
        format!("one line carries {} and four carry {}", floor.over(line), floor.over(other)),
        format!("{line} + 4 * {other} = {}", line + 4 * other),
        format!("{enter} would enter and {one} + 4 * {each} = {leave} leave"),
    ]
}

/// To the nearest thousandth a total may come out too large, and a bound too small.
fn printing(total: Fraction, bound: Fraction) -> Vec<String> {
    let [above, below] = [total, bound].map(|of| Fraction::new(nearest(of, 1000), 1000_u64));
    assert!(total.upper * above.lower < above.upper * total.lower, "the total rounds up");
    assert!(below.upper * bound.lower < bound.upper * below.lower, "the bound rounds down");
    let told = |exact, printed, nearest| {
        format!("is {exact}.., so it is printed as {printed}. To the nearest it would be {nearest}")
    };
    vec![
        format!("listing {}", told(total.down(4), total.down(3), above.down(3))),
        format!("error 1 {}", told(bound.down(7), bound.up(3), below.down(3))),
    ]
}

/// The nearest number of parts of which so many make one.
fn nearest(of: Fraction, of_one: u128) -> u128 {
    (2 * of.upper * of_one + of.lower) / (2 * of.lower)
}
