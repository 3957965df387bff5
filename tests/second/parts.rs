//! What each floor of a site takes of the slices (request C-14): parts of any size, such as
//! end with their slice or would go on after it, sizes that a sum or a product would wrap,
//! and slices that end anywhere.

use crate::call::{get, put, Call, BELT, COUNTS, NUMBER};
use crate::damage::{set_belt, set_limits, sound, BELTS, NODES, PAIRS, RESOURCES};
use crate::fast;
use crate::joined::{cut_to_numbers, is_stated, joined, of_one_office, Known, STRANGE};
use crate::random::Random;
use crate::site::{Site, FLOOR};
use crate::sites::{any_floor, tiny};
use crate::tally::Tally;

/// All but the last are alike.
const FLOORS: usize = 4;
const LAST: usize = FLOORS - 1;

/// The slices that are parted, in the order of their sizes in the list, and what is
/// returned for a sound floor without any number of them.
const PARTED: [(&str, u64); 5] =
    [("belts", 2000), ("pairs", 3000), ("limits", 0), ("flow", 5000), ("length", 5000)];

/// What the floors need of them, and at most read of the limits.
const NEEDED: [usize; 5] = [BELTS * 4, PAIRS * 2, NODES, PAIRS * BELTS, RESOURCES];
const NEEDED_LAST: [usize; 5] = [4, 2, 2, 1, 1];

fn part(call: &mut Call, which: usize) -> &mut Vec<u8> {
    let Call { belts, pairs, limits, flow, length, .. } = call;
    [belts, pairs, limits, flow, length].into_iter().nth(which).expect("a part")
}

fn slice(site: &mut Site, which: usize) -> &mut Vec<u8> {
    let Site { belts, pairs, limits, flow, length, .. } = site;
    [belts, pairs, limits, flow, length].into_iter().nth(which).expect("a slice")
}

/// Where a floor's item has the size of a part.
fn size_at(floor: usize, which: usize) -> usize {
    floor * FLOOR / NUMBER + 2 + which
}

/// Alike, so that belts and pairs of one are sound in another. The tables have room for
/// those of all. The last floor needs one number of each table.
fn floors() -> Vec<Call> {
    let floor = |i: u64| {
        let mut call = Call { q: 4 + i, ..sound() };
        set_belt(&mut call, 2, 2, 2 + i);
        set_limits(&mut call, &[0, 3 + i, 0, 1000]);
        call.belts.truncate(BELTS * BELT);
        call.flow = vec![STRANGE; FLOORS * PAIRS * BELTS * NUMBER];
        call.length = vec![STRANGE; (FLOORS * BELTS + NODES) * NUMBER];
        cut_to_numbers(&mut call);
        call
    };
    let alike = (0..LAST as u64).map(floor);
    of_one_office(alike.chain([tiny(5)]).collect(), 6, &[0; COUNTS])
}

fn site() -> Site {
    joined(&floors(), &[9; FLOORS])
}

pub fn compare(tally: &mut Tally) {
    for (which, (name, none)) in PARTED.into_iter().enumerate() {
        for at in 0..FLOORS {
            let name = format!("{name} of floor {at}");
            compare_sized(tally, &name, which, at, none);
            compare_great(tally, &name, which, at, none);
            compare_near(tally, &name, which, at);
        }
        compare_ends(tally, name, which);
    }
    compare_all_great(tally);
}

/// Each floor has its own part: one has none, a number less than needed, or some more.
/// The slice ends with them or goes on.
fn compare_sized(tally: &mut Tally, name: &str, which: usize, at: usize, none: u64) {
    let needed = if at < LAST { NEEDED } else { NEEDED_LAST }[which];
    let short = if at < LAST && which < 3 { 0 } else { none };
    let sizes = [(0, none), (needed - 1, short), (needed, 0), (needed + 1, 0)];
    // Of belts four more would be one, and of pairs two.
    let more = [2, 3, 6, 9].into_iter().take([2, 0, 4, 4, 4][which]);
    for (size, returned) in sizes.into_iter().chain(more.map(|more| (needed + more, 0))) {
        let mut floors = floors();
        let part = part(&mut floors[at], which);
        part.resize(part.len().max(needed * NUMBER), 0);
        part.resize(size * NUMBER, STRANGE);
        let mut stated = [0; FLOORS];
        stated[at] = returned;
        for after in [0, NUMBER, BELT + 3] {
            let mut known = Known::new(&floors);
            known.follow(|site| slice(site, which), vec![STRANGE; after]);
            let name = format!("{name}, {size} numbers, {after} bytes after them all");
            known.compare_stated(tally, &name, &stated);
        }
    }
}

/// All that is left, and sizes beyond it: the later floors have none.
fn compare_great(tally: &mut Tally, name: &str, which: usize, at: usize, none: u64) {
    let mut site = site();
    let whole = (slice(&mut site, which).len() / NUMBER) as u64;
    let before: u64 = (0..at).map(|floor| get(&site.floors, size_at(floor, which))).sum();
    let own = get(&site.floors, size_at(at, which));
    let mut stated = [0; FLOORS];
    stated[at + 1..].fill(none);
    for size in great(whole - before, before, own) {
        for more in [0, 3, NUMBER - 1] {
            let mut site = site.clone();
            put(&mut site.floors, size_at(at, which), size);
            slice(&mut site, which).extend(vec![STRANGE; more]);
            let name = format!("{name}, size {size}, {more} bytes after them all");
            compare_returned(tally, &name, &site, &stated);
        }
    }
}

/// Of the sums with what is before, and of these in bytes, some wrap to small numbers.
fn great(left: u64, before: u64, own: u64) -> Vec<u64> {
    let mut sizes = vec![left, left + 1, left + 4, left + before, left + before + 1];
    sizes.extend([9, 16, 32, 61, 62, 63].map(|bits| (1 << bits) + own));
    sizes.extend([61, 62, 63].map(|bits| 1 << bits));
    sizes.extend([61, 63].map(|bits| (1 << bits) - 1));
    sizes.extend([(1 << 61) + 3, u64::MAX, u64::MAX - 1, u64::MAX - 7]);
    if before > 0 {
        sizes.extend([0, 1, 2].map(|wrapped| u64::MAX - before + wrapped));
        sizes.extend([0, 1, own].map(|wrapped| (1 << 61) - before + wrapped));
    }
    sizes
}

fn compare_all_great(tally: &mut Tally) {
    for at in 0..FLOORS {
        for size in [1 << 61, 1 << 63, u64::MAX] {
            let mut site = site();
            (0..PARTED.len()).for_each(|which| put(&mut site.floors, size_at(at, which), size));
            let mut stated = [0; FLOORS];
            stated[at + 1..].fill(2000);
            compare_returned(tally, &format!("all sizes of floor {at} {size}"), &site, &stated);
        }
    }
}

/// With what is returned for each floor stated apart from the second solver.
fn compare_returned(tally: &mut Tally, name: &str, site: &Site, stated: &[u64]) {
    let (returned, after) = site.answered(fast::solve);
    tally.judge(name, Some(site), is_stated(&after, stated));
    tally.compare_site(name, site, (returned, after));
}

/// Sizes a little less or more than the part: what comes after it is shifted.
fn compare_near(tally: &mut Tally, name: &str, which: usize, at: usize) {
    let own = get(&site().floors, size_at(at, which));
    for size in own.saturating_sub(9)..own + 9 {
        let mut site = site();
        put(&mut site.floors, size_at(at, which), size);
        let name = format!("{name}, size {size}, shifted");
        tally.compare_site(&name, &site, site.answered(fast::solve));
    }
}

/// A slice that ends anywhere.
fn compare_ends(tally: &mut Tally, name: &str, which: usize) {
    let len = slice(&mut site(), which).len();
    for size in (0..len).step_by(5) {
        let mut site = site();
        slice(&mut site, which).truncate(size);
        let name = format!("{name} of {size} bytes");
        tally.compare_site(&name, &site, site.answered(fast::solve));
    }
}

/// Small floors with some sizes changed and slices cut.
pub fn compare_random(tally: &mut Tally, amount: u64, random: &mut Random) {
    for i in 0..amount {
        let floors = random.between(1, 5) as usize;
        let calls = (0..floors).map(|_| any_floor(random)).collect();
        let calls = of_one_office(calls, random.between(1, 8), &[0; COUNTS]);
        let mut site = joined(&calls, &vec![9; floors]);
        for _ in 0..random.between(1, 4) {
            disturb(&mut site, random);
        }
        let name = format!("sizes at random {i}");
        tally.compare_site(&name, &site, site.answered(fast::solve));
    }
}

fn disturb(site: &mut Site, random: &mut Random) {
    let which = random.index(PARTED.len());
    let len = slice(site, which).len();
    if random.one_in(5) {
        return slice(site, which).truncate(random.index(len + 1));
    }
    let place = size_at(random.index(site.number_of_floors()), which);
    let (size, some) = (get(&site.floors, place), random.between(1, 8));
    let near = [0, 1, size.saturating_sub(some), size.saturating_add(some)];
    let great = [61, 62, 63].map(|bits| (1 << bits) - some);
    let sizes = [&near[..], &great, &[(len / NUMBER) as u64, 1 << 61 | size, u64::MAX]].concat();
    put(&mut site.floors, place, random.pick(&sizes));
}
