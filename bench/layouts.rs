//! The calls that archives of this project have had, each made on the tables of
//! this tree. A change of the call adds an arm for the new one and keeps the
//! adapters of those before, so that older archives can still be timed.

use crate::call::{get, Call, BELT, NUMBER};
use crate::clock::spent;
use crate::full::Kind;
use std::mem::transmute;
use std::time::Duration;

#[derive(Clone, Copy, PartialEq)]
pub enum Layout {
    /// n and q; belts of three numbers, pairs; flow, lengths, an answer of seven
    /// numbers, the running count.
    Base,
    /// Belts of four numbers, the last their mark, and a signed flow (request C-12).
    Marks,
    /// After the pairs a slice of limits (request C-17).
    Limits,
    /// After q the office, and a table of counts for the running one (request C-20).
    Offices,
}

impl Layout {
    /// This tree's, that of tests/second/library.rs.
    pub const HERE: Layout = Layout::Offices;

    pub fn named(name: &str) -> Option<Layout> {
        match name {
            "base" => Some(Layout::Base),
            "marks" => Some(Layout::Marks),
            "limits" => Some(Layout::Limits),
            "offices" => Some(Layout::Offices),
            _ => None,
        }
    }

    /// Whether such floors can be sent by it.
    pub fn has(self, kind: Kind) -> bool {
        match self {
            Layout::Base => !kind.marked && !kind.limited,
            Layout::Marks => !kind.limited,
            Layout::Limits | Layout::Offices => true,
        }
    }
}

/// An archive's call, its arguments not yet known.
type Symbol = unsafe extern "C" fn();

#[link(name = "here", kind = "static")]
extern "C" {
    fn vithmork_solve();
}

// The other archive's vithmork_solve, which against.sh has renamed.
#[link(name = "other", kind = "static")]
extern "C" {
    fn other_solve();
}

/// Both are called through one piece of code, so that their work space comes to
/// lie at the same place of the stack.
pub struct Archive {
    symbol: Symbol,
    layout: Layout,
}

/// What a call took, without what its adapter did before and after.
pub struct Run {
    pub took: Duration,
    pub returned: u64,
}

impl Archive {
    pub fn here() -> Archive {
        Archive { symbol: vithmork_solve, layout: Layout::HERE }
    }

    pub fn there(layout: Layout) -> Archive {
        Archive { symbol: other_solve, layout }
    }

    /// An adapter lays out what its archive asks for, times the call alone, and
    /// leaves what was written where this tree's library would.
    pub fn solve(&self, call: &mut Call) -> Run {
        match self.layout {
            Layout::Base => solve_unlimited(self.symbol, &without_marks(&call.belts), call),
            Layout::Marks => solve_unlimited(self.symbol, &call.belts.clone(), call),
            Layout::Limits => solve_one_count(self.symbol, call),
            Layout::Offices => solve(self.symbol, call),
        }
    }
}

fn timed(call: impl FnOnce() -> u64) -> Run {
    let began = spent();
    let returned = call();
    Run { took: spent() - began, returned }
}

type Read = *const u8;
type Written = *mut u8;

/// Such a belt cannot be reversible; an unmarked floor's flow is the same for both.
fn without_marks(belts: &[u8]) -> Vec<u8> {
    let belts = belts.chunks_exact(BELT);
    let unmarked = |belt: &[u8]| {
        assert_eq!(get(belt, 3), 0, "this layout has no marks");
        belt[..3 * NUMBER].to_vec()
    };
    belts.flat_map(unmarked).collect()
}

/// All that an archive with one running count is lent of them: the office's own.
fn own_count<'a>(counts: &'a mut [u8], office: &u64) -> &'a mut [u8] {
    &mut counts[(*office as usize - 1) * NUMBER..][..NUMBER]
}

#[rustfmt::skip]
type Solve = unsafe extern "C" fn(
    n: u64, q: u64, office: u64,
    belts: Read, belts_len: usize,
    pairs: Read, pairs_len: usize,
    limits: Read, limits_len: usize,
    flow: Written, flow_len: usize,
    length: Written, length_len: usize,
    answer: Written, answer_len: usize,
    counts: Written, counts_len: usize,
) -> u64;

#[rustfmt::skip]
fn solve(symbol: Symbol, call: &mut Call) -> Run {
    let Call { n, q, office, belts, pairs, limits, flow, length, answer, counts } = call;
    // SAFETY: an archive of this layout has these arguments, and asks of its caller
    // only that each pointer and count be a slice of its own, as borrowed ones are.
    timed(|| unsafe {
        transmute::<Symbol, Solve>(symbol)(
            *n, *q, *office,
            belts.as_ptr(), belts.len(),
            pairs.as_ptr(), pairs.len(),
            limits.as_ptr(), limits.len(),
            flow.as_mut_ptr(), flow.len(),
            length.as_mut_ptr(), length.len(),
            answer.as_mut_ptr(), answer.len(),
            counts.as_mut_ptr(), counts.len(),
        )
    })
}

#[rustfmt::skip]
type SolveOneCount = unsafe extern "C" fn(
    n: u64, q: u64,
    belts: Read, belts_len: usize,
    pairs: Read, pairs_len: usize,
    limits: Read, limits_len: usize,
    flow: Written, flow_len: usize,
    length: Written, length_len: usize,
    answer: Written, answer_len: usize,
    count: Written, count_len: usize,
) -> u64;

/// For the layout with limits and without offices.
#[rustfmt::skip]
fn solve_one_count(symbol: Symbol, call: &mut Call) -> Run {
    let Call { n, q, office, belts, pairs, limits, flow, length, answer, counts } = call;
    let count = own_count(counts, office);
    // SAFETY: an archive of this layout has these arguments, and asks of its caller
    // only that each pointer and count be a slice of its own, as borrowed ones are.
    timed(|| unsafe {
        transmute::<Symbol, SolveOneCount>(symbol)(
            *n, *q,
            belts.as_ptr(), belts.len(),
            pairs.as_ptr(), pairs.len(),
            limits.as_ptr(), limits.len(),
            flow.as_mut_ptr(), flow.len(),
            length.as_mut_ptr(), length.len(),
            answer.as_mut_ptr(), answer.len(),
            count.as_mut_ptr(), count.len(),
        )
    })
}

#[rustfmt::skip]
type SolveUnlimited = unsafe extern "C" fn(
    n: u64, q: u64,
    belts: Read, belts_len: usize,
    pairs: Read, pairs_len: usize,
    flow: Written, flow_len: usize,
    length: Written, length_len: usize,
    answer: Written, answer_len: usize,
    count: Written, count_len: usize,
) -> u64;

/// For the layouts without limits and offices, which differ in their belts alone.
#[rustfmt::skip]
fn solve_unlimited(symbol: Symbol, belts: &[u8], call: &mut Call) -> Run {
    let Call { n, q, office, pairs, limits, flow, length, answer, counts, .. } = call;
    assert!(limits.is_empty(), "this layout has no limits");
    let count = own_count(counts, office);
    // SAFETY: an archive of these layouts has these arguments, and asks of its caller
    // only that each pointer and count be a slice of its own, as borrowed ones are.
    timed(|| unsafe {
        transmute::<Symbol, SolveUnlimited>(symbol)(
            *n, *q,
            belts.as_ptr(), belts.len(),
            pairs.as_ptr(), pairs.len(),
            flow.as_mut_ptr(), flow.len(),
            length.as_mut_ptr(), length.len(),
            answer.as_mut_ptr(), answer.len(),
            count.as_mut_ptr(), count.len(),
        )
    })
}
