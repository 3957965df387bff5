//! The figures that document 01 prints: its marked ones of the arithmetic, and
//! its runs. Beside these stand runs with limits (request C-17) and sites (C-14), by hand.

use crate::call::Call;
use crate::joined::bytes;
use crate::method::{grown, halved, level, start};
use crate::network::{network, Network};
use crate::site::Site;

/// A run as far as it is known beforehand: a flow table and some numbers of the answer.
pub struct Run {
    pub name: &'static str,
    pub call: Call,
    pub flow: &'static [u64],
    pub answer: [Option<u64>; 7],
}

pub fn runs() -> Vec<Run> {
    let one = network(2, &[(1, 2, 5)], &[(1, 2)]);
    let row = network(3, &[(1, 2, 2), (2, 3, 3)], &[(1, 3), (2, 3)]);
    let beside = network(2, &[(1, 2, 1), (1, 2, 1)], &[(1, 2)]);
    let (d, alpha) = (137_438_953_472, 68_719_476_736);
    vec![
        Run {
            name: "one belt of 5",
            call: Call::new(&one, 4),
            flow: &[20],
            answer: [Some(20), Some(5), Some(20), None, None, Some(4), None],
        },
        Run {
            name: "two belts in a row",
            call: Call::new(&row, 4),
            flow: &[0, 0, 0, 48],
            answer: [Some(48), Some(3), Some(48), None, None, Some(16), None],
        },
        Run {
            name: "two belts side by side",
            call: Call::new(&beside, 4),
            flow: &[16, 15],
            answer: [31, 1, 16, d, alpha, 31, 1].map(Some),
        },
    ]
}

/// L is 4 for two resources and 5 for three, at q = 4. There is one route, and each draw
/// is the limit, or the belt where that is less: T of them fill it.
pub fn by_hand() -> Vec<Run> {
    let one = |pair| network(2, &[(1, 2, 5)], &[pair]);
    let row = |pairs| network(3, &[(1, 2, 5), (2, 3, 7)], pairs).limited(&[0, 3]);
    let back = one((2, 1)).limited(&[2]).reversible(&[1]);
    let run = |name, net: Network, flow, [drawn, capacity, load, choices]: [u64; 4]| Run {
        name,
        call: Call::new(&net, 4),
        flow,
        answer: [Some(drawn), Some(capacity), Some(load), None, None, Some(choices), None],
    };
    vec![
        run("a limit at the source", one((1, 2)).limited(&[2]), &[32], [32, 2, 32, 16]),
        run("a limit at the sink", one((1, 2)).limited(&[0, 2]), &[32], [32, 2, 32, 16]),
        run("a limit at the sink, against a belt", back, &[-32_i64 as u64], [32, 2, 32, 16]),
        run("a limit above the belt", one((1, 2)).limited(&[6]), &[80], [80, 5, 80, 16]),
        run("a limit between two belts", row(&[(1, 3)]), &[60, 60], [60, 3, 60, 20]),
        run("a limit for two pairs", row(&[(1, 3), (2, 3)]), &[0, 0, 0, 60], [60, 3, 60, 20]),
    ]
}

/// Sites at q = 4 (request C-14), before and after, every byte. Document 01 prints flow,
/// scale and choices of one belt of 5 and of two belts side by side, of these the answer
/// whole, and the starting length at 5. One belt has the bound 5 at every choice, so that
/// the first gives it: D is 5 * 13,743,895,348. Of the other two floors one has n = 1, and
/// no pair of the last is joined.
pub fn sites() -> Vec<(&'static str, Site, Site)> {
    let (at_5, at_1) = (13_743_895_348, 68_719_476_736);
    let one = [0, 20, 5, 20, 68_719_476_740, at_5, 4, 1];
    let beside = [0, 31, 1, 16, 137_438_953_472, at_1, 31, 1];
    let kept = [1000, 9, 9, 9, 9, 9, 9, 9];
    let unjoined = [0, 0, 1, 1, 0, 1, 0, 0];
    let two = Site {
        office: 2,
        floors: bytes(&[[2, 4, 4, 2, 0, 1, 1], [2, 4, 8, 2, 0, 2, 2]].concat()),
        belts: bytes(&[1, 2, 5, 0, 1, 2, 1, 0, 1, 2, 1, 0]),
        pairs: bytes(&[1, 2, 1, 2]),
        limits: Vec::new(),
        flow: bytes(&[9; 3]),
        length: bytes(&[9; 3]),
        answers: bytes(&[9; 16]),
        counts: bytes(&[9, 5, 9, 9, 9, 9, 9, 9]),
    };
    let two_after = Site {
        flow: bytes(&[20, 16, 15]),
        length: bytes(&[at_5, at_1, at_1]),
        answers: bytes(&[one, beside].concat()),
        counts: bytes(&[9, 40, 9, 9, 9, 9, 9, 9]),
        ..two.clone()
    };
    let items = [
        [2, 4, 10, 3, 2, 3, 2],
        [1, 4, 5, 2, 1, 2, 1],
        [2, 4, 7, 2, 0, 1, 3],
        [3, 4, u64::MAX, 2, 2, 2, 1 << 63],
    ];
    let belts: [&[u64]; 4] =
        [&[1, 2, 1, 0, 1, 2, 1, 0, 1, 2], &[1, 2, 3, 0, 1], &[1, 2, 5, 0, 1, 2, 3], &[2, 3, 7, 0]];
    let four = Site {
        office: 8,
        floors: bytes(&items.concat()),
        belts: bytes(&belts.concat()),
        pairs: bytes(&[1, 2, 1, 1, 2, 1, 2, 1, 3]),
        limits: bytes(&[0, 0, 7, 0, 3]),
        flow: bytes(&[9; 8]),
        length: bytes(&[9; 8]),
        answers: bytes(&[9; 33]),
        counts: bytes(&[9, 9, 9, 9, 9, 9, 9, 0, 9]),
    };
    let four_after = Site {
        flow: bytes(&[16, 15, 9, 9, 9, 20, 0, 9]),
        length: bytes(&[at_1, at_1, 9, at_5, 9, 9, 0, 0]),
        answers: bytes(&[[beside, kept, one, unjoined].as_flattened(), &[9]].concat()),
        counts: bytes(&[9, 9, 9, 9, 9, 9, 9, 35, 9]),
        ..four.clone()
    };
    vec![("two floors", two, two_after), ("four floors, one turned down", four, four_after)]
}

/// The second solver's own arithmetic against the marked figures: each name with
/// what was found and what is printed.
pub fn arithmetic() -> Vec<(&'static str, u64, u64)> {
    let starts = |capacity| start(&[capacity])[0];
    vec![
        ("L for m = 1, q = 4", level(1, 4), 1),
        ("L for m = 2, q = 4", level(2, 4), 4),
        ("L for m = 2, q = 16", level(2, 16), 12),
        ("L for m = 256, q = 4", level(256, 4), 25),
        ("L for m = 256, q = 16", level(256, 16), 92),
        ("T for m = 256, q = 16", 16 * level(256, 16), 1_472),
        ("start at 5", starts(5), 13_743_895_348),
        ("start at 3", starts(3), 22_906_492_246),
        ("growth of a full draw", grown(13_743_895_348, 5, 5, 4), 17_179_869_185),
        ("growth of length 1", grown(1, 1_000, 1, 16), 2),
        ("half of 7", halved(7), 4),
        ("half of 1", halved(1), 1),
    ]
}
