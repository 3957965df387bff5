//! Calls at the edge of every bound: the last values that pass, slices that end within
//! an item, and tables that are just too short.

use crate::call::{Call, BELT, NUMBER, OFFICES, PAIR};
use crate::damage::{resized, set, set_belt, set_limits, sound, tables, Case};
use crate::damage::{BELTS, LIMITS, NODES, PAIRS, RESOURCES};
use crate::floors::{floor, unjoined, Capacities};
use crate::limits::{limited, with_limits, Stations};
use crate::network::network;
use crate::random::Random;
use crate::reversible::MARKS;
use crate::shapes::{Shape, FULL_SIZE};

pub fn cases() -> Vec<Case> {
    let mut cases = passing_values();
    cases.extend(passing_sizes());
    cases.extend(limits_in_number());
    cases.extend(short_elsewhere());
    cases
}

/// Document 01 asks for whole tables also where nothing can be carried, and of
/// the largest floor as of any other.
fn short_elsewhere() -> Vec<Case> {
    let mut random = Random::new(6);
    let full = floor(Shape::Dense, FULL_SIZE, Capacities::Mixed, &mut random);
    let apart = unjoined(Shape::Dense, FULL_SIZE, Capacities::Mixed, &mut random);
    let size = with_limits(FULL_SIZE);
    let [full_limits, apart_limits] = [floor, unjoined].map(|made| {
        let net = made(Shape::Dense, size, Capacities::Mixed, &mut random);
        limited(net, Stations::All, &mut random)
    });
    let mut cases = Vec::new();
    let plain = [("full-size", full), ("unjoined", apart)];
    let with = [("full-size with limits", full_limits), ("unjoined with limits", apart_limits)];
    for (name, net) in plain.into_iter().chain(with) {
        for at in 0..4 {
            let mut call = Call::new(&net, 4);
            tables(&mut call)[at].pop();
            cases.push(Case { name: format!("{name}, table {at} short"), call, returned: 5000 });
        }
    }
    cases
}

fn passing_sizes() -> Vec<Case> {
    let mut cases = Vec::new();
    let mut pass = |name: String, apply: &dyn Fn(&mut Call)| cases.push(passing(name, apply));
    for more in 0..BELT {
        let size = BELTS * BELT + more;
        pass(format!("{more} bytes after the belts"), &|call| call.belts.resize(size, 0xa5));
    }
    for size in 3 * NUMBER..BELT {
        pass(format!("a belt of {size} bytes after the belts"), &|call| add_part(call, size));
    }
    for more in 0..PAIR {
        let size = PAIRS * PAIR + more;
        pass(format!("{more} bytes after the pairs"), &|call| call.pairs.resize(size, 0xa5));
    }
    for more in 0..NUMBER {
        let size = LIMITS.len() * NUMBER + more;
        pass(format!("{more} bytes after the limits"), &|call| call.limits.resize(size, 0xa5));
    }
    for (at, needed) in [PAIRS * BELTS, RESOURCES, 7, OFFICES].into_iter().enumerate() {
        for more in 0..=2 * NUMBER {
            let size = needed * NUMBER + more;
            pass(format!("{more} bytes after table {at}"), &|call| {
                tables(call)[at].resize(size, 0xa5)
            });
        }
    }
    cases
}

/// Of the numbers that a length table needs, and of belts with limits at all 64 stations.
fn limits_in_number() -> Vec<Case> {
    let sized = |name: &str, limits: &[u64], lengths: usize, returned| {
        let mut call = sound();
        set_limits(&mut call, limits);
        call.length.truncate(lengths * NUMBER);
        Case { name: format!("limits {name}, {lengths} lengths"), call, returned }
    };
    let many = |belts: usize, returned| {
        let net = network(64, &vec![(1, 2, 1); belts], &[(1, 2)]).limited(&[1; 64]);
        Case { name: format!("{belts} belts and 64 limits"), call: Call::new(&net, 4), returned }
    };
    vec![
        sized("at all stations", &[1; NODES], BELTS + NODES, 0),
        sized("at all stations", &[1; NODES], BELTS + NODES - 1, 5000),
        sized("nowhere", &[0; NODES], BELTS, 0),
        sized("nowhere", &[0; NODES], BELTS - 1, 5000),
        sized("too great", &[0, 0, 1001], BELTS + 1, 14003),
        sized("too great", &[0, 0, 1001], BELTS, 5000),
        many(192, 0),
        many(193, 15000),
    ]
}

/// A belt that is sound up to its mark, which is not whole.
fn add_part(call: &mut Call, size: usize) {
    call.belts.resize((BELTS + 1) * BELT, 0);
    for (which, number) in [1, 5, 1000].into_iter().enumerate() {
        set_belt(call, BELTS + 1, which, number);
    }
    call.belts.truncate(BELTS * BELT + size);
}

fn passing_values() -> Vec<Case> {
    let mut cases = passing_marks();
    let mut pass = |name: &str, apply: &dyn Fn(&mut Call)| cases.push(passing(name.into(), apply));
    pass("as it is", &|_| ());
    pass("n 64", &|call| call.n = 64);
    pass("n 2, one belt, one pair", &|call| {
        call.n = 2;
        call.belts.truncate(BELT);
        call.pairs.truncate(PAIR);
        set(&mut call.pairs, 1, 2);
    });
    pass("256 belts", &|call| {
        call.limits.clear();
        more_belts(call, 257 * BELT - 1);
    });
    pass("256 belts and limits past the last station", &|call| {
        set_limits(call, &[0, 0, 0, 0, 0, 1, 1001, u64::MAX]);
        more_belts(call, 256 * BELT);
    });
    pass("254 belts and two limits", &|call| more_belts(call, 255 * BELT - 1));
    pass("251 belts and five limits", &|call| {
        set_limits(call, &[1000; NODES]);
        more_belts(call, 251 * BELT);
    });
    pass("32 pairs", &|call| {
        call.pairs = resized(&call.pairs, PAIR, 33 * PAIR - 1);
        call.flow.resize(32 * BELTS * NUMBER, 0x3c);
    });
    pass("q 4", &|call| call.q = 4);
    pass("q 16", &|call| call.q = 16);
    pass("capacity 1", &|call| set(&mut call.belts, 2, 1));
    pass("capacity 1000", &|call| set(&mut call.belts, 2, 1000));
    pass("limit 1", &|call| set(&mut call.limits, 1, 1));
    pass("limit 1000", &|call| set(&mut call.limits, 1, 1000));
    pass("limit 0", &|call| set(&mut call.limits, 1, 0));
    pass("no limits", &|call| call.limits.clear());
    pass("zeros for limits", &|call| set_limits(call, &[0; NODES]));
    pass("limits past the last station", &|call| {
        set_limits(call, &[0, 3, 0, 1000, 0, 1001, 1, u64::MAX]);
        call.length.truncate(RESOURCES * NUMBER);
    });
    pass("many of them", &|call| {
        set_limits(call, &[0; NODES]);
        call.limits.resize(999 * NUMBER, 0xa5);
        call.length.truncate(BELTS * NUMBER);
    });
    pass("unjoined, as no belt leaves station 5", &|call| {
        (0..PAIRS).for_each(|i| set(&mut call.pairs, 2 * i, 5));
        (0..PAIRS).for_each(|i| set(&mut call.pairs, 2 * i + 1, 1));
    });
    cases
}

/// With tables that are long enough.
fn more_belts(call: &mut Call, size: usize) {
    call.belts = resized(&call.belts, BELT, size);
    call.flow.resize(PAIRS * 256 * NUMBER, 0x3c);
    call.length.resize(256 * NUMBER, 0x3c);
}

/// No mark is refused, those of no capacity too.
fn passing_marks() -> Vec<Case> {
    let marks = [0, 3, 1000, 1001, 1 << 32].into_iter().chain(MARKS);
    let places = marks.flat_map(|mark| (1..=BELTS).map(move |place| (place, mark)));
    let case = |(place, mark)| {
        let name = format!("mark {mark} on belt {place}");
        passing(name, &|call| set_belt(call, place, 3, mark))
    };
    places.map(case).collect()
}

fn passing(name: String, apply: &dyn Fn(&mut Call)) -> Case {
    let mut call = sound();
    apply(&mut call);
    Case { name, call, returned: 0 }
}
