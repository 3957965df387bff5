//! Damaged calls: each refusal alone and any two at a time. What must be returned is
//! stated here from the order of document 01's rows, apart from the second solver's own
//! checks.

use crate::call::{put, Call, Refusal, BELT, FULL, NUMBER, OFFICES, PAIR};
use crate::floors::{lent, small};
use crate::limits::{limited, STATIONS};
use crate::network::network;
use crate::random::Random;
use crate::reversible::{marked, SHARES};
use crate::{edges, offices};

pub struct Case {
    pub name: String,
    pub call: Call,
    pub returned: u64,
}

struct Fault {
    name: String,
    refusal: Refusal,
    apply: Box<dyn Fn(&mut Call)>,
}

pub const NODES: usize = 5;
pub const BELTS: usize = 6;
pub const PAIRS: usize = 3;
pub const LIMITS: [u64; 4] = [0, 3, 0, 1000];

/// Belts and limits that are set.
pub const RESOURCES: usize = BELTS + 2;

/// Above every bound; the lower bits of the first two alone would pass.
const BIG: [u64; 4] = [(1 << 16) + 5, (1 << 32) + 5, u64::MAX - 1, u64::MAX];

/// A sound floor of 5 stations that the faults are put into; belts 1 and 4 are
/// reversible, and the last station has no number among the limits. The length table
/// has room for limits everywhere. The office is neither the first nor the last, and its
/// count as great as may be.
pub fn sound() -> Call {
    let belts = [(1, 2, 3), (2, 3, 2), (3, 5, 4), (1, 4, 2), (4, 5, 1), (2, 5, 1000)];
    let net = network(NODES as u64, &belts, &[(1, 5), (2, 5), (1, 3)]).reversible(&[1, 4]);
    let mut call = lent(&net.limited(&LIMITS), 7, &mut Random::new(5));
    set_limits(&mut call, &LIMITS);
    call.length.resize((BELTS + NODES) * NUMBER, 0x3c);
    call.office = 6;
    set_own(&mut call, FULL);
    call
}

pub fn set_limits(call: &mut Call, limits: &[u64]) {
    call.limits = limits.iter().flat_map(|limit| limit.to_le_bytes()).collect();
}

/// The place in document 01's order, with request C-17's two and C-20's one: of two
/// faults the lower one is returned.
fn rank(refusal: Refusal) -> (usize, u64, u64) {
    let rows = [1, 2, 15, 3, 4, 5, 16, 11];
    let row = rows.iter().position(|number| *number == refusal.number);
    match (row, refusal.number) {
        (Some(row), _) => (row, 0, 0),
        (None, 6 | 7) => (rows.len(), refusal.place, refusal.number),
        (None, 14) => (rows.len() + 1, refusal.place, 0),
        (None, _) => (rows.len() + 2, refusal.place, 0),
    }
}

pub fn cases() -> Vec<Case> {
    let faults = faults();
    let mut cases = edges::cases();
    cases.extend(offices::cases());
    for (i, a) in faults.iter().enumerate() {
        cases.push(case(&[a]));
        cases.extend(faults[i + 1..].iter().map(|b| case(&[a, b])));
    }
    cases
}

/// Each fault alone.
pub fn alone() -> Vec<Case> {
    faults().iter().map(|fault| case(&[fault])).collect()
}

/// Calls with at most one fault, and what is returned if a table that another call has
/// beside these is too short as well.
pub fn beside_short(table: &str) -> Vec<Case> {
    let short = fault(format!("short {table}"), 5, 0, |_| ());
    let mut cases = vec![case(&[&short])];
    cases.extend(faults().iter().map(|fault| case(&[fault, &short])));
    cases
}

fn case(faults: &[&Fault]) -> Case {
    let mut call = sound();
    faults.iter().for_each(|fault| (fault.apply)(&mut call));
    let refusals = faults.iter().map(|fault| fault.refusal);
    let first = refusals.min_by_key(|refusal| rank(*refusal)).expect("a fault at least");
    let names: Vec<&str> = faults.iter().map(|fault| fault.name.as_str()).collect();
    Case { name: names.join(" and "), call, returned: first.returned() }
}

fn fault(name: String, number: u64, place: u64, apply: impl Fn(&mut Call) + 'static) -> Fault {
    Fault { name, refusal: Refusal { number, place }, apply: Box::new(apply) }
}

fn faults() -> Vec<Fault> {
    let mut faults = Vec::new();
    faults.extend(with_big(&[0, 1, 65, 256 + 5]).map(stations));
    faults.extend([0, 1, BELT - 1, 257 * BELT, 258 * BELT - 1, 999 * BELT].map(belts));
    faults.extend([(256, &[1][..]), (255, &[0, 1, 0, 1000]), (252, &[1; NODES])].map(crowded));
    faults.extend([(256, &[0, 0, 0, 0, 1001][..]), (255, &[u64::MAX; 2])].map(crowded));
    faults.extend([0, 1, PAIR - 1, 33 * PAIR, 34 * PAIR - 1, 999 * PAIR].map(pairs));
    faults.extend(with_big(&[0, 3, 17, 256 + 5]).map(precision));
    for (at, needed) in [PAIRS * BELTS, RESOURCES, 7, OFFICES].into_iter().enumerate() {
        let whole = needed * NUMBER;
        faults.extend([0, whole - NUMBER, whole - 1].map(|size| short(at, size)));
    }
    faults.extend(with_big(&[0, 9, 256 + 5]).map(office));
    faults.extend([FULL + 1, u64::MAX].map(full_count));
    faults.extend([FULL + 1, u64::MAX].map(full_counts));
    for place in [1, 3, BELTS] {
        faults.extend(loose_ends().map(|ends| loose_belt(place, ends)));
        faults.extend(with_big(&[0, 1001]).map(|number| capacity(place, number)));
    }
    for place in [1, 4, NODES] {
        faults.extend(with_big(&[1001]).map(|number| limit(place, number)));
    }
    for place in 1..=PAIRS {
        faults.extend(loose_ends().map(|ends| loose_pair(place, ends)));
    }
    faults
}

fn with_big(edges: &[u64]) -> impl Iterator<Item = u64> + use<> {
    edges.to_vec().into_iter().chain(BIG)
}

fn loose_ends() -> impl Iterator<Item = (u64, u64)> {
    let outside = with_big(&[0, 6, 256 + 5]);
    outside.flat_map(|end| [(end, 1), (1, end), (end, end)]).chain([(1, 1), (5, 5)])
}

fn stations(n: u64) -> Fault {
    fault(format!("n {n}"), 1, 0, move |call| call.n = n)
}

fn precision(q: u64) -> Fault {
    fault(format!("q {q}"), 4, 0, move |call| call.q = q)
}

/// Cut, or filled with sound items over and over.
pub fn resized(slice: &[u8], item: usize, size: usize) -> Vec<u8> {
    let sound = slice.len() / item * item;
    slice[..sound].iter().copied().cycle().take(size).collect()
}

fn belts(size: usize) -> Fault {
    let apply = move |call: &mut Call| call.belts = resized(&call.belts, BELT, size);
    fault(format!("belts of {size} bytes"), 2, 0, apply)
}

/// Too many belts and limits, where another fault has not changed the number of belts
/// for which there is a row before.
fn crowded((belts, limits): (usize, &'static [u64])) -> Fault {
    let apply = move |call: &mut Call| {
        if call.belts.len() / BELT == BELTS {
            call.belts = resized(&call.belts, BELT, belts * BELT);
            set_limits(call, limits);
        }
    };
    fault(format!("{belts} belts with limits {limits:?}"), 15, 0, apply)
}

/// The slice is lengthened up to the station.
fn limit(place: usize, number: u64) -> Fault {
    let apply = move |call: &mut Call| {
        let size = call.limits.len().max(place * NUMBER);
        call.limits.resize(size, 0);
        set(&mut call.limits, place - 1, number);
    };
    fault(format!("limit {number} of station {place}"), 14, place as u64, apply)
}

fn pairs(size: usize) -> Fault {
    let apply = move |call: &mut Call| call.pairs = resized(&call.pairs, PAIR, size);
    fault(format!("pairs of {size} bytes"), 3, 0, apply)
}

pub fn tables(call: &mut Call) -> [&mut Vec<u8>; 4] {
    [&mut call.flow, &mut call.length, &mut call.answer, &mut call.counts]
}

fn short(at: usize, size: usize) -> Fault {
    let name = ["flow", "length", "answer", "counts"][at];
    let apply = move |call: &mut Call| tables(call)[at].truncate(size);
    fault(format!("{name} of {size} bytes"), 5, 0, apply)
}

/// Another fault may have cut the slice; then there is nothing to set.
pub fn set(slice: &mut [u8], place: usize, number: u64) {
    if (place + 1) * NUMBER <= slice.len() {
        put(slice, place, number);
    }
}

/// A number of the belt at a place, from 1.
pub fn set_belt(call: &mut Call, place: usize, which: usize, number: u64) {
    set(&mut call.belts, (place - 1) * BELT / NUMBER + which, number);
}

fn office(number: u64) -> Fault {
    fault(format!("office {number}"), 16, 0, move |call| call.office = number)
}

/// Another fault may have left the call without an office, or cut its count away.
fn set_own(call: &mut Call, count: u64) {
    if (1..=OFFICES as u64).contains(&call.office) {
        let own = call.own();
        set(&mut call.counts, own, count);
    }
}

fn full_count(count: u64) -> Fault {
    fault(format!("the office's count {count}"), 11, 0, move |call| set_own(call, count))
}

/// Whatever office the call has.
fn full_counts(count: u64) -> Fault {
    let apply = move |call: &mut Call| set_counts(call, &[count; OFFICES]);
    fault(format!("every count {count}"), 11, 0, apply)
}

/// What the table has after them stays.
pub fn set_counts(call: &mut Call, counts: &[u64]) {
    (0..).zip(counts).for_each(|(place, count)| set(&mut call.counts, place, *count));
}

fn loose_belt(place: usize, (tail, head): (u64, u64)) -> Fault {
    let apply = move |call: &mut Call| {
        set_belt(call, place, 0, tail);
        set_belt(call, place, 1, head);
    };
    fault(format!("belt {place} from {tail} to {head}"), 6, place as u64, apply)
}

fn capacity(place: usize, number: u64) -> Fault {
    let apply = move |call: &mut Call| set_belt(call, place, 2, number);
    fault(format!("belt {place} of capacity {number}"), 7, place as u64, apply)
}

fn loose_pair(place: usize, (source, sink): (u64, u64)) -> Fault {
    let apply = move |call: &mut Call| {
        set(&mut call.pairs, 2 * (place - 1), source);
        set(&mut call.pairs, 2 * (place - 1) + 1, sink);
    };
    fault(format!("pair {place} from {source} to {sink}"), 8, place as u64, apply)
}

/// A small floor with a few faults anywhere; whether it still passes, and what
/// is returned, is for the second solver to say.
pub fn at_random(random: &mut Random) -> Call {
    let (net, share) = (small(random), random.pick(&SHARES));
    let (net, stations) = (marked(net, share, random), random.pick(&STATIONS));
    let (net, q) = (limited(net, stations, random), random.between(4, 16));
    let mut call = lent(&net, q, random);
    for _ in 0..random.between(1, 3) {
        disturb(&mut call, random);
    }
    call
}

fn disturb(call: &mut Call, random: &mut Random) {
    let edges = [0, 1, 2, 3, 4, 8, 9, 16, 17, 64, 65, 1000, 1001, FULL, FULL + 1, u64::MAX];
    let number = random.pick(&edges);
    match random.index(12) {
        0 => call.n = number,
        1 => call.q = number,
        2 => call.office = number,
        3 => set_own(call, number),
        4 => set_somewhere(&mut call.counts, number, random),
        5 => set_somewhere(&mut call.pairs, number, random),
        6 => cut(&mut call.belts, random),
        7 => cut(&mut call.pairs, random),
        8 => cut(tables(call)[random.index(4)], random),
        9 => cut(&mut call.limits, random),
        10 => set_somewhere(&mut call.limits, number, random),
        _ => set_somewhere(&mut call.belts, number, random),
    }
}

fn set_somewhere(slice: &mut [u8], number: u64, random: &mut Random) {
    let place = random.index(slice.len() / NUMBER + 1);
    set(slice, place, number);
}

fn cut(slice: &mut Vec<u8>, random: &mut Random) {
    let size = random.index(slice.len() + 1);
    slice.truncate(size);
}
