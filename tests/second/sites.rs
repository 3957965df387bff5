//! The comparison of sites (request C-14): what is stated by hand, lists and tables of any
//! size, every damaged call as a floor among others, counts that pass 2^63 on the way, and
//! floors at random, each site beside the same floors sent singly. `parts` has what a
//! floor takes of the slices.

use crate::call::{get, numbers, put, Call, Refusal, ANSWER, COUNTS, FULL, NUMBER, OFFICES};
use crate::damage::{self, set_belt};
use crate::floors::{self, CAPACITIES, PRECISIONS};
use crate::joined::{bytes, cut_to_numbers, joined, of_one_office, singly, Known, STRANGE};
use crate::method::threshold;
use crate::network::{network, Network};
use crate::random::Random;
use crate::shapes::{FULL_SIZE, SHAPES};
use crate::site::{Site, ANSWERED, FLOOR, MOST_FLOORS};
use crate::tally::{holds, Tally};
use crate::totes::of_any_kind;
use crate::{fast, figures, is, parts, solver, timed};

/// Every so many-th damaged call, so many sites at random, and how many floors one of
/// full size has.
pub struct Amounts {
    pub damaged: usize,
    pub random: u64,
    pub full: usize,
}

pub fn compare(tally: &mut Tally, amounts: &Amounts, seed: u64) {
    timed("sites, by hand", tally, compare_by_hand);
    timed("sites, lists and tables of any size", tally, |tally| {
        compare_tables(tally);
        compare_lists(tally);
    });
    timed("sites, parts", tally, parts::compare);
    timed("sites, parts at random", tally, |tally| {
        parts::compare_random(tally, amounts.random, &mut Random::new(seed))
    });
    timed("sites, damaged floors", tally, |tally| compare_damaged(tally, amounts.damaged));
    timed("sites, counts and offices", tally, |tally| {
        compare_passing(tally);
        compare_shared_faults(tally);
    });
    timed("sites, one floor", tally, |tally| {
        compare_one_floor(tally, amounts.random, &mut Random::new(seed + 1))
    });
    timed("sites, at random", tally, |tally| {
        compare_random(tally, amounts.random, &mut Random::new(seed + 2))
    });
    timed("sites, full-size floors", tally, |tally| {
        compare_full(tally, amounts.full, &mut Random::new(seed + 3))
    });
}

fn compare_by_hand(tally: &mut Tally) {
    for (name, site, after) in figures::sites() {
        let own = site.answered(solver::solve) == (0, after.clone());
        tally.judge(name, Some(&site), holds(own, "the second solver's site is not as stated"));
        tally.compare_site(name, &site, (0, after));
    }
}

/// One belt joins the only pair, four times.
pub fn tiny(capacity: u64) -> Call {
    Call::new(&network(2, &[(1, 2, capacity)], &[(1, 2)]), 4)
}

fn tiny_floors(floors: usize) -> Vec<Call> {
    (1..=floors as u64).map(tiny).collect()
}

/// Answers for every number of floors, too short and too long.
fn compare_tables(tally: &mut Tally) {
    for floors in 1..=MOST_FLOORS {
        let (needed, name) = (floors * ANSWERED, format!("{floors} floors"));
        for size in [0, 1, NUMBER, ANSWER, floors * ANSWER, needed - NUMBER, needed - 1] {
            let mut site = joined(&tiny_floors(floors), &vec![9; floors]);
            site.answers.truncate(size);
            compare_refused(tally, &format!("{name}, {size} bytes of answers"), &site, 5000);
        }
        for more in [0, 1, NUMBER - 1, NUMBER, ANSWER, ANSWERED, 5 * ANSWERED + 1] {
            let mut known = Known::new(&tiny_floors(floors));
            known.follow(|site| &mut site.answers, vec![STRANGE; more]);
            known.follow(|site| &mut site.floors, vec![STRANGE; more % FLOOR]);
            let name = format!("{name}, {more} bytes after the answers");
            known.compare_stated(tally, &name, &vec![0; floors]);
        }
    }
}

/// No floors or too many, also such numbers of them that would pass if they were cut.
fn compare_lists(tally: &mut Tally) {
    for floors in [0, 17, 18, 32, 33] {
        let needed = floors * ANSWERED;
        for more in [0, 1, NUMBER, FLOOR - 1] {
            for size in [needed, needed + ANSWERED, 0, NUMBER, needed.saturating_sub(1)] {
                compare_list(tally, floors, more, size);
            }
        }
    }
    for floors in [256, 257, 256 + 16, 65_536, 65_537] {
        compare_list(tally, floors, 0, 17 * ANSWERED);
    }
}

fn compare_list(tally: &mut Tally, floors: usize, more: usize, answers: usize) {
    let mut site = joined(&tiny_floors(MOST_FLOORS), &[9; MOST_FLOORS]);
    let list = site.floors.iter().copied().cycle();
    site.floors = list.take(floors * FLOOR + more).collect();
    site.answers.resize(answers, STRANGE);
    let name = format!("list of {floors} floors and {more} bytes, {answers} of answers");
    compare_refused(tally, &name, &site, 13_000);
}

/// No floor is looked at, nor the office and its count.
fn compare_refused(tally: &mut Tally, name: &str, site: &Site, returned: u64) {
    let offices = [0, 9].map(|office| Site { office, ..site.clone() });
    let counts = [vec![], vec![0; COUNTS - 1], vec![0xff; COUNTS]];
    let counts = counts.map(|counts| Site { counts, ..site.clone() });
    let lists = [0, 0xff].map(|byte| vec![byte; site.floors.len()]);
    let lists = lists.map(|floors| Site { floors, ..site.clone() });
    for site in [site.clone()].into_iter().chain(offices).chain(counts).chain(lists) {
        let own = site.refusal().map_or(0, Refusal::returned);
        tally.judge(name, Some(&site), is(own, returned));
        tally.compare_site(name, &site, (returned, site.clone()));
    }
}

/// Before two sound floors, and between them. An answer cannot be short here.
fn compare_damaged(tally: &mut Tally, every: usize) {
    let alone = damage::alone().into_iter();
    let cases = alone.chain(damage::cases().into_iter().step_by(every));
    for case in cases.filter(|case| case.call.answer.len() >= ANSWER) {
        let Call { office, counts, .. } = &case.call;
        let calls = vec![case.call.clone(), tiny(2), tiny(3)];
        let first = Known::new(&of_one_office(calls, *office, counts));
        compare_at(tally, &format!("{}, first", case.name), first, 0, case.returned);
        let calls = vec![tiny(2), case.call.clone(), tiny(3)];
        let between = Known::new(&of_one_office(calls, *office, &below(counts)));
        compare_at(tally, &format!("{}, between", case.name), between, 1, case.returned);
    }
}

fn compare_at(tally: &mut Tally, name: &str, known: Known, at: usize, returned: u64) {
    let own = get(&known.after.answers, at * ANSWERED / NUMBER);
    tally.judge(name, Some(&known.site), is(own, returned));
    known.compare(tally, name);
}

/// Counts that are as great as may be are so after a tiny floor.
fn below(counts: &[u8]) -> Vec<u8> {
    let mut below = counts.to_vec();
    for place in (0..counts.len() / NUMBER).filter(|place| get(counts, *place) == FULL) {
        put(&mut below, place, FULL - 4);
    }
    below
}

/// One belt joins the only pair of each floor, so that the choices are T. After so many
/// floors the office's count is 2^63 or one above it; nothing is asked of the others.
fn compare_passing(tally: &mut Tally) {
    let sizes: Vec<(u64, u64)> = (1..=MOST_FLOORS as u64).zip(PRECISIONS.cycle()).collect();
    let floor = |(m, q): &(u64, u64)| Call::new(&floors::one_joining(*m, *m), *q);
    let calls: Vec<Call> = sizes.iter().map(floor).collect();
    let choices: Vec<u64> = sizes.iter().map(|(m, q)| threshold(*m as usize, *q)).collect();
    for office in 1..=OFFICES {
        for (full, above) in (0..=MOST_FLOORS).flat_map(|full| [(full, 0), (full, 1)]) {
            let passing = (full + 1 - above).min(MOST_FLOORS);
            let mut counts = [u64::MAX; OFFICES];
            counts[office - 1] = FULL + above as u64 - choices[..full].iter().sum::<u64>();
            let site = of_one_office(calls.clone(), office as u64, &bytes(&counts));
            counts[office - 1] += choices[..passing].iter().sum::<u64>();
            let (known, name) = (Known::new(&site), format!("office {office}, {passing} pass"));
            let own = holds(numbers(&known.after.counts) == counts, "not the sum of choices");
            tally.judge(&name, Some(&known.site), own);
            let mut stated = vec![0; MOST_FLOORS];
            stated[passing..].fill(11_000);
            known.compare_stated(tally, &name, &stated);
        }
    }
}

/// Counts too short, no office or a full count are refused in each floor, if no earlier
/// row is.
fn compare_shared_faults(tally: &mut Tally) {
    for size in 0..=COUNTS + 2 * NUMBER {
        let (mut counts, name) = (vec![0; COUNTS], format!("counts of {size} bytes"));
        counts.resize(size, STRANGE);
        let refused = if size < COUNTS { [5000, 5000] } else { [0, 6001] };
        compare_rows(tally, &name, 3, &counts, refused);
    }
    for office in [0, 9, 10, 16, 17, 256 + 3, (1 << 32) + 3, u64::MAX] {
        for offices in [OFFICES, 9, 10, 17] {
            let name = format!("office {office}, counts of {offices}");
            compare_rows(tally, &name, office, &vec![0; offices * NUMBER], [16_000; 2]);
        }
    }
    for office in 1..=OFFICES as u64 {
        let name = format!("full count of office {office}");
        compare_rows(tally, &name, office, &bytes(&[FULL + 1; OFFICES]), [11_000; 2]);
    }
}

/// Two numbers are returned for the sound floors and for one with a loose belt.
fn compare_rows(
    tally: &mut Tally,
    name: &str,
    office: u64,
    counts: &[u8],
    [sound, loose]: [u64; 2],
) {
    let changed = |change: fn(&mut Call)| {
        let mut call = tiny(7);
        change(&mut call);
        call
    };
    let calls = vec![
        tiny(5),
        changed(|call| call.n = 1),
        changed(|call| call.belts.clear()),
        changed(|call| call.pairs.clear()),
        tiny(6),
        changed(|call| call.q = 3),
        changed(|call| call.flow.clear()),
        changed(|call| call.length.clear()),
        changed(|call| set_belt(call, 1, 0, 3)),
        tiny(7),
    ];
    let stated = [sound, 1000, 2000, 3000, sound, 4000, 5000, 5000, loose, sound];
    Known::new(&of_one_office(calls, office, counts)).compare_stated(tally, name, &stated);
}

/// Beside the library's own answer to the floor alone.
fn compare_one_floor(tally: &mut Tally, amount: u64, random: &mut Random) {
    for i in 0..amount {
        let (mut call, name) = (any_floor(random), format!("one floor {i}"));
        call.answer.resize(call.answer.len().max(ANSWER), STRANGE);
        let alone = tally.compare(&name, &call, fast::solve);
        let site = joined(&[call], &[random.next()]);
        let found = tally.compare_site(&name, &site, site.answered(fast::solve));
        let same = found == joined(&[alone], &[get(&found.answers, 0)]);
        tally.judge(&name, Some(&site), holds(same, "not as the floor's own call leaves it"));
    }
}

/// A small floor of any kind; one in four is damaged.
pub fn any_floor(random: &mut Random) -> Call {
    if random.one_in(4) {
        return damage::at_random(random);
    }
    let net = floors::small(random);
    let (net, q) = (of_any_kind(net, random), random.between(4, 16));
    floors::lent(&net, q, random)
}

/// For every number of floors; one in four sites is sent in another order too.
fn compare_random(tally: &mut Tally, amount: u64, random: &mut Random) {
    for (i, floors) in (0..amount).zip((1..=MOST_FLOORS).cycle()) {
        let mut calls: Vec<Call> = (0..floors).map(|_| any_floor(random)).collect();
        cut_to_numbers(calls.last_mut().expect("a floor"));
        let (office, counts) = office_and_counts(random);
        let calls = of_one_office(calls, office, &counts);
        let mut known = Known::new(&calls);
        if random.one_in(4) {
            compare_shuffled(tally, &format!("site {i}, in another order"), &calls, random);
        }
        known.lengthen(random);
        known.compare(tally, &format!("site {i}, of {floors} floors"));
    }
}

/// One time in eight no office, or a table too short.
fn office_and_counts(random: &mut Random) -> (u64, Vec<u8>) {
    let office = random.between(1, OFFICES as u64);
    let more = random.pick(&[0, 0, 3, NUMBER, 5 * NUMBER + 1]);
    let mut counts = random.bytes(COUNTS + more);
    let own = [0, 1, FULL - 3000, FULL - 300, FULL - 1, FULL, FULL + 1];
    put(&mut counts, office as usize - 1, random.pick(&own));
    match random.index(16) {
        0 => (random.pick(&[0, 9, u64::MAX]), counts),
        1 => (office, counts[..random.index(COUNTS)].to_vec()),
        _ => (office, counts),
    }
}

/// Each floor leaves the same, and together they count the same: no count is full.
fn compare_shuffled(tally: &mut Tally, name: &str, calls: &[Call], random: &mut Random) {
    let calls = of_one_office(calls.to_vec(), 5, &[0; COUNTS]);
    let (returned, after) = singly(&calls);
    let counts = after.last().expect("a floor").counts.clone();
    let mut order: Vec<usize> = (0..calls.len()).collect();
    random.shuffle(&mut order);
    let in_order = |calls: &[Call]| order.iter().map(|at| calls[*at].clone()).collect();
    let returned: Vec<u64> = order.iter().map(|at| returned[*at]).collect();
    let after = joined(&of_one_office(in_order(&after), 5, &counts), &returned);
    let site = joined(&in_order(&calls), &vec![9; calls.len()]);
    Known { site, after }.compare(tally, name);
}

/// As large as may be, in one site.
fn compare_full(tally: &mut Tally, floors: usize, random: &mut Random) {
    let shapes = SHAPES.into_iter().cycle().zip(CAPACITIES.into_iter().cycle());
    let floor = |(shape, capacities)| floors::floor(shape, FULL_SIZE, capacities, random);
    let nets: Vec<Network> = shapes.take(floors).map(floor).collect();
    let calls: Vec<Call> = nets.iter().map(|net| Call::new(net, 4)).collect();
    if floors > 0 {
        let name = format!("{floors} full-size floors");
        Known::new(&calls).compare_stated(tally, &name, &vec![0; floors]);
    }
}
