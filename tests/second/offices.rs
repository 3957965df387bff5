//! The offices and their counts (request C-20): counts about 2^63 at the office's own
//! place and at others, tables about eight numbers long, and calls on one table in turn.

use crate::call::{numbers, Call, COUNTS, FULL, NUMBER, OFFICES};
use crate::damage::{set_counts, sound, Case};
use crate::method::threshold;
use crate::random::Random;
use crate::tally::{holds, Tally};
use crate::{fast, floors};

pub fn cases() -> Vec<Case> {
    let of = |office| [own_counts(office), other_counts(office), sizes(office)];
    let cases = (1..=OFFICES).flat_map(of).flatten();
    cases.chain(no_offices()).collect()
}

/// The office's own count alone says whether the call passes.
fn own_counts(office: usize) -> Vec<Case> {
    let own = [(0, 0), (FULL, 0), (FULL + 1, 11000), (u64::MAX, 11000)];
    let others = [0, FULL, FULL + 1, u64::MAX];
    let case = |(count, returned), other| {
        let mut counts = [other; OFFICES];
        counts[office - 1] = count;
        with_counts(office, counts, returned)
    };
    own.into_iter().flat_map(|own| others.map(|other| case(own, other))).collect()
}

/// One other office has a count, of which nothing is asked.
fn other_counts(office: usize) -> Vec<Case> {
    let others = (1..=OFFICES).filter(|other| *other != office);
    let case = |other: usize, count| {
        let mut counts = [0; OFFICES];
        counts[other - 1] = count;
        with_counts(office, counts, 0)
    };
    others.flat_map(|other| [FULL, FULL + 1, u64::MAX].map(|count| case(other, count))).collect()
}

fn with_counts(office: usize, counts: [u64; OFFICES], returned: u64) -> Case {
    let mut call = Call { office: office as u64, ..sound() };
    set_counts(&mut call, &counts);
    Case { name: format!("office {office}, counts {counts:?}"), call, returned }
}

/// Also where the office's own count is whole in a table that is too short. A ninth
/// number is above every bound, and not read.
fn sizes(office: usize) -> Vec<Case> {
    let case = |size| {
        let mut counts = vec![0; COUNTS];
        counts.resize(size, 0xff);
        Case {
            name: format!("office {office}, counts of {size} bytes"),
            call: Call { office: office as u64, counts, ..sound() },
            returned: if size < COUNTS { 5000 } else { 0 },
        }
    };
    (0..=COUNTS + 2 * NUMBER).map(case).collect()
}

/// Also where the table goes on, and has a number at that place.
fn no_offices() -> Vec<Case> {
    let case = |office, places| Case {
        name: format!("office {office}, counts of {places} offices"),
        call: Call { office, counts: vec![0; places * NUMBER], ..sound() },
        returned: 16000,
    };
    let offices = [0, 9, 10, 16, 17, u64::MAX];
    offices.into_iter().flat_map(|office| [8, 9, 10, 16, 17].map(|n| case(office, n))).collect()
}

/// Each call takes the table that the one before it left, some for no office. One belt
/// joins the only pair, so that the choices are T. Every count begins just below 2^63:
/// an office after the other comes above it, and the rest go on.
pub fn compare_turns(tally: &mut Tally, random: &mut Random) {
    let mut stated: Vec<u64> = (1..=OFFICES as u64).map(|office| FULL - 500 * office).collect();
    let mut counts: Vec<u8> = stated.iter().flat_map(|count| count.to_le_bytes()).collect();
    for turn in 1..=400 {
        let (m, q) = (random.between(1, 8), random.between(4, 16));
        let office = random.between(0, OFFICES as u64 + 1);
        let call = Call { office, counts, ..Call::new(&floors::one_joining(m, 1), q) };
        let name = format!("turn {turn}, of office {office}");
        counts = tally.compare(&name, &call, fast::solve).counts;
        raise(&mut stated, office, threshold(m as usize, q));
        let sums = holds(numbers(&counts) == stated, "the counts are not the sums of choices");
        tally.judge(&name, Some(&call), sums);
    }
    let above = stated.iter().all(|count| *count > FULL);
    tally.judge("offices in turn", None, holds(above, "some count never came above 2^63"));
}

/// Nothing for no office, or for one whose count is above 2^63.
fn raise(counts: &mut [u64], office: u64, choices: u64) {
    for (each, count) in (1..).zip(counts) {
        if each == office && *count <= FULL {
            *count += choices;
        }
    }
}
