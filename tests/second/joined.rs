//! Sites (request C-14) joined from floors, with what they have to leave by these floors
//! sent singly.

use crate::call::{get, Call, ANSWER, NUMBER};
use crate::fast;
use crate::random::Random;
use crate::site::{Site, ANSWERED, FLOOR};
use crate::tally::{holds, Tally};

/// A byte that no small number has.
pub const STRANGE: u8 = 0xa5;

pub fn bytes(numbers: &[u64]) -> Vec<u8> {
    numbers.iter().flat_map(|number| number.to_le_bytes()).collect()
}

/// The site of these floors, of which all but the last end with whole numbers, with a
/// number before each answer. The counts are those of the last.
pub fn joined(calls: &[Call], firsts: &[u64]) -> Site {
    let parts = |part: fn(&Call) -> &Vec<u8>| calls.iter().flat_map(part).copied().collect();
    let answer = |(first, call): (&u64, &Call)| [&first.to_le_bytes(), &call.answer[..]].concat();
    let last = calls.last().expect("a floor");
    Site {
        office: last.office,
        floors: calls.iter().flat_map(item).collect(),
        belts: parts(|call| &call.belts),
        pairs: parts(|call| &call.pairs),
        limits: parts(|call| &call.limits),
        flow: parts(|call| &call.flow),
        length: parts(|call| &call.length),
        answers: firsts.iter().zip(calls).flat_map(answer).collect(),
        counts: last.counts.clone(),
    }
}

fn item(call: &Call) -> Vec<u8> {
    let parts = [&call.belts, &call.pairs, &call.limits, &call.flow, &call.length];
    let sizes = parts.map(|part| (part.len() / NUMBER) as u64);
    bytes(&[&[call.n, call.q], &sizes[..]].concat())
}

/// For one office, on one table of counts, and all but the last of whole numbers.
pub fn of_one_office(mut calls: Vec<Call>, office: u64, counts: &[u8]) -> Vec<Call> {
    let last = calls.len() - 1;
    calls[..last].iter_mut().for_each(cut_to_numbers);
    for call in &mut calls {
        call.answer.resize(call.answer.len().max(ANSWER), STRANGE);
        call.office = office;
        call.counts = counts.to_vec();
    }
    calls
}

pub fn cut_to_numbers(call: &mut Call) {
    let Call { belts, pairs, limits, flow, length, answer, .. } = call;
    for part in [belts, pairs, limits, flow, length] {
        part.truncate(part.len() / NUMBER * NUMBER);
    }
    answer.truncate(ANSWER);
}

/// Each takes the counts that the one before it left.
pub fn singly(calls: &[Call]) -> (Vec<u64>, Vec<Call>) {
    let mut counts = calls[0].counts.clone();
    let one = |call: &Call| {
        let (returned, after) =
            Call { counts: counts.clone(), ..call.clone() }.answered(fast::solve);
        counts.clone_from(&after.counts);
        (returned, after)
    };
    calls.iter().map(one).unzip()
}

/// A site with what it has to leave, by its floors sent singly.
pub struct Known {
    pub site: Site,
    pub after: Site,
}

impl Known {
    pub fn new(calls: &[Call]) -> Known {
        let (returned, after) = singly(calls);
        let strange = vec![u64::from_le_bytes([STRANGE; NUMBER]); calls.len()];
        Known { site: joined(calls, &strange), after: joined(&after, &returned) }
    }

    /// With bytes after the slices that belong to no floor: not an item in the list.
    pub fn lengthen(&mut self, random: &mut Random) {
        let more = random.index(FLOOR);
        self.follow(|site| &mut site.floors, random.bytes(more));
        let slices: [fn(&mut Site) -> &mut Vec<u8>; 6] = [
            |site| &mut site.belts,
            |site| &mut site.pairs,
            |site| &mut site.limits,
            |site| &mut site.flow,
            |site| &mut site.length,
            |site| &mut site.answers,
        ];
        for slice in slices {
            let more = random.pick(&[0, 0, 3, NUMBER, 5 * NUMBER + 1, ANSWERED]);
            self.follow(slice, random.bytes(more));
        }
    }

    pub fn follow(&mut self, slice: impl Fn(&mut Site) -> &mut Vec<u8>, more: Vec<u8>) {
        slice(&mut self.site).extend(&more);
        slice(&mut self.after).extend(&more);
    }

    pub fn compare(self, tally: &mut Tally, name: &str) {
        let own = self.site.answered(fast::solve) == (0, self.after.clone());
        let own = holds(own, "the second solver's site is not as its floors sent singly");
        tally.judge(name, Some(&self.site), own);
        tally.compare_site(name, &self.site, (0, self.after));
    }

    /// With what is returned for each floor stated.
    pub fn compare_stated(self, tally: &mut Tally, name: &str, stated: &[u64]) {
        tally.judge(name, Some(&self.site), is_stated(&self.after, stated));
        self.compare(tally, name);
    }
}

/// On the second solver's own behalf: for each floor it returns what is stated.
pub fn is_stated(after: &Site, stated: &[u64]) -> Result<(), String> {
    let answers = after.answers.chunks_exact(ANSWERED).take(after.number_of_floors());
    let returned: Vec<u64> = answers.map(|eight| get(eight, 0)).collect();
    holds(returned == stated, &format!("the second solver has {returned:?}, not {stated:?}"))
}
