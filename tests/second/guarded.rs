//! The library's calls on slices with known bytes on both sides, at odd addresses:
//! what it writes outside them shows, and so does a wish for aligned numbers.

use crate::call::Call;
use crate::library::{site, solve, whole, Lent};
use crate::site::Site;
use crate::whole::Whole;

const BEFORE: usize = 33;
const AFTER: usize = 40;

struct Guarded {
    bytes: Vec<u8>,
    len: usize,
}

fn guard(at: usize) -> u8 {
    (at * 151 + 89) as u8
}

impl Guarded {
    fn around(slice: &[u8]) -> Guarded {
        let mut bytes: Vec<u8> = (0..BEFORE + slice.len() + AFTER).map(guard).collect();
        bytes[BEFORE..][..slice.len()].copy_from_slice(slice);
        Guarded { bytes, len: slice.len() }
    }

    fn slice(&mut self) -> &mut [u8] {
        &mut self.bytes[BEFORE..][..self.len]
    }

    fn intact(&self) -> bool {
        let inside = BEFORE..BEFORE + self.len;
        let mut bytes = self.bytes.iter().enumerate();
        bytes.all(|(at, byte)| inside.contains(&at) || *byte == guard(at))
    }

    fn contents(self) -> Vec<u8> {
        self.bytes[BEFORE..][..self.len].to_vec()
    }
}

/// What the library returns, with the slices as it leaves them, or the names of
/// the slices outside which it wrote.
pub fn call_library(call: &Call) -> Result<(u64, Call), String> {
    let run = |lent: Lent, _: &mut [u8]| solve(call.n, call.q, call.office, lent);
    let (returned, lent, _) = guarded(slices(call), ("totes", &[]), run)?;
    Ok((returned, left(call, lent)))
}

/// The same of the call of request C-15.
pub fn call_whole(Whole { call, totes }: &Whole) -> Result<(u64, Whole), String> {
    let run = |lent: Lent, totes: &mut [u8]| whole(call.n, call.q, call.office, lent, totes);
    let (returned, lent, totes) = guarded(slices(call), ("totes", totes), run)?;
    Ok((returned, Whole { call: left(call, lent), totes }))
}

/// And of that of request C-14.
pub fn call_site(whole: &Site) -> Result<(u64, Site), String> {
    let Site { office, floors, belts, pairs, limits, flow, length, answers, counts } = whole;
    let run = |lent: Lent, floors: &mut [u8]| site(*office, floors, lent);
    let given: [&[u8]; 7] = [belts, pairs, limits, flow, length, answers, counts];
    let (returned, lent, floors) = guarded(given, ("floors", floors), run)?;
    let [belts, pairs, limits, flow, length, answers, counts] = lent;
    let office = *office;
    let after = Site { office, floors, belts, pairs, limits, flow, length, answers, counts };
    Ok((returned, after))
}

fn slices(call: &Call) -> [&[u8]; 7] {
    let Call { belts, pairs, limits, flow, length, answer, counts, .. } = call;
    [belts, pairs, limits, flow, length, answer, counts]
}

fn left(call: &Call, slices: [Vec<u8>; 7]) -> Call {
    let Call { n, q, office, .. } = *call;
    let [belts, pairs, limits, flow, length, answer, counts] = slices;
    Call { n, q, office, belts, pairs, limits, flow, length, answer, counts }
}

/// Of the seven slices that all calls have, and one that a call has beside them.
fn guarded(
    seven: [&[u8]; 7],
    (name, own): (&str, &[u8]),
    run: impl FnOnce(Lent, &mut [u8]) -> u64,
) -> Result<(u64, [Vec<u8>; 7], Vec<u8>), String> {
    let (mut lent, mut own) = (seven.map(Guarded::around), Guarded::around(own));
    let [belts, pairs, limits, flow, length, answer, counts] = lent.each_mut().map(Guarded::slice);
    let lend = Lent { belts, pairs, limits, flow, length, answer, counts };
    let returned = run(lend, own.slice());
    let names = ["belts", "pairs", "limits", "flow", "length", "answer", "counts", name];
    let all = lent.iter().chain([&own]).zip(names);
    let spilled: Vec<&str> = all.filter(|(g, _)| !g.intact()).map(|(_, name)| name).collect();
    if !spilled.is_empty() {
        return Err(format!("wrote outside {}", spilled.join(", ")));
    }
    Ok((returned, lent.map(Guarded::contents), own.contents()))
}
