//! What each page tells of figures, in the page's own words.

use crate::listed::{grouped, listed, most};
use crate::method::{grown, halved, level, start, threshold};
use crate::rounded::Fraction;
use crate::{course, guarantee};

pub fn all() -> Vec<(&'static str, String)> {
    let pages = [
        ("README.md", readme()),
        ("docs/COURSE.md", course::told()),
        ("docs/GUARANTEE.md", guarantee::told()),
        ("docs/METHOD.md", marked()),
        ("include/vithmork.h", vec![promised()]),
    ];
    let named = pages.map(|(page, told)| told.into_iter().map(move |text| (page, text)));
    named.into_iter().flatten().collect()
}

fn readme() -> Vec<String> {
    let floor = listed("two_docks");
    let [_, _, _, weight, alpha, choices, which] = floor.solution.answer;
    let (upper, lower) = (grouped(floor.upper()), grouped(floor.lower()));
    let [gate, from_a, from_b, first, second] =
        [1, 3, 4, 6, 7].map(|belt| grouped(floor.belt(belt)));
    vec![
        format!("from {} of it at q = 4 to {} at q = 16", share(4), share(16)),
        format!("{upper} / {lower} = {} totes an hour", floor.total().down(3)),
        format!("{} / {} = {}", grouped(weight), grouped(alpha), floor.bound().up(3)),
        format!("here it is {}", most(&floor.net)),
        format!("{choices} routes were chosen"),
        format!("the lengths at the {which}th gave the bound"),
        format!("{gate} / {lower} = {} of the {}", floor.carried(1).down(3), floor.capacity(1)),
        format!("the first carries {} of {}", floor.carried(6).short(), floor.capacity(6)),
        format!("{from_a} + {from_b} reach the merge, and {first} + {second} leave it"),
        format!("`belt,1,2,{},{},{}`", floor.belt(1), floor.lower(), floor.capacity(1)),
        format!("the upper number of a bound has {} here", weight.to_string().len()),
        format!("the contracts would promise {}", to_the_nearest()),
    ]
}

/// 1 - 7/(4q), rounded down to the second place.
fn share(q: u64) -> String {
    Fraction::new(4 * q - 7, 4 * q).down(2)
}

fn promised() -> String {
    format!("{} of it at q = 4, {} at 8 and {} at 16", share(4), share(8), share(16))
}

/// What examples/NAME.c should print.
pub fn printed(name: &str) -> String {
    std::fs::read_to_string(format!("tests/{name}.expected")).expect("it can be read")
}

/// What contracts rounded to the nearest tote would promise.
pub fn to_the_nearest() -> String {
    let numbers = |line: &str| -> Vec<u64> {
        let words = line.split(|c: char| !c.is_ascii_digit());
        words.filter_map(|word| word.parse().ok()).collect()
    };
    let mut each = Vec::new();
    for line in printed("whole").lines().filter(|line| line.starts_with("pair")) {
        let [_, _, whole, rest, load] = numbers(line)[..] else { panic!("five numbers a pair") };
        each.push(whole + u64::from(2 * rest >= load));
    }
    let words: Vec<String> = each.iter().map(u64::to_string).collect();
    format!("{} = {}", words.join(" + "), each.iter().sum::<u64>())
}

fn marked() -> Vec<String> {
    let starts = |capacity| start(&[capacity])[0];
    let of_level = |m, q| format!("| L for m = {m}, q = {q} | {} |", level(m, q));
    let after = grown(starts(5), 5, 5, 4);
    vec![
        of_level(1, 4),
        of_level(2, 4),
        of_level(2, 16),
        of_level(256, 4),
        format!("| {}, and {} |", level(256, 16), grouped(threshold(256, 16))),
        format!("| start at capacity 5 | {} |", grouped(starts(5))),
        format!("| start at capacity 3 | {} |", grouped(starts(3))),
        format!("| length {} after g = c = 5 at q = 4 | {} |", grouped(starts(5)), grouped(after)),
        format!("| length 1 after g = 1, c = 1,000 at q = 16 | {} |", grown(1, 1_000, 1, 16)),
        format!("| half of 7, and of 1 | {}, and {} |", halved(7), halved(1)),
    ]
}
