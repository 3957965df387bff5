//! The call of request C-14, the floors of a site at once: the slices are cut into what
//! each floor would be sent singly, the floors are answered in turn, and what they leave
//! is joined again.

use crate::call::{numbers, Call, Refusal, ANSWER, NUMBER};
use crate::network::{Network, Solution};

/// Of a floor, in bytes: its item of the list, and its answer with what is returned.
pub const FLOOR: usize = 7 * NUMBER;
pub const ANSWERED: usize = NUMBER + ANSWER;

pub const MOST_FLOORS: usize = 16;

/// All that the host gives, and after the call all that it finds.
#[derive(Clone, PartialEq)]
pub struct Site {
    pub office: u64,
    pub floors: Vec<u8>,
    pub belts: Vec<u8>,
    pub pairs: Vec<u8>,
    pub limits: Vec<u8>,
    pub flow: Vec<u8>,
    pub length: Vec<u8>,
    pub answers: Vec<u8>,
    pub counts: Vec<u8>,
}

impl Site {
    /// An incomplete last item is none.
    pub fn number_of_floors(&self) -> usize {
        self.floors.len() / FLOOR
    }

    /// What the call returns, with the slices as it leaves them.
    pub fn answered(&self, solve: fn(&Network, u64) -> Solution) -> (u64, Site) {
        match self.refusal() {
            Some(refusal) => (refusal.returned(), self.clone()),
            None => (0, self.in_turn(solve)),
        }
    }

    /// Of the whole call; nothing of any floor is looked at.
    pub fn refusal(&self) -> Option<Refusal> {
        let floors = self.number_of_floors();
        let number = match self.answers.len() / ANSWERED {
            _ if floors == 0 || floors > MOST_FLOORS => 13,
            answers if answers < floors => 5,
            _ => return None,
        };
        Some(Refusal { number, place: 0 })
    }

    /// Each floor counts on from where the one before it left the counts.
    fn in_turn(&self, solve: fn(&Network, u64) -> Solution) -> Site {
        let (calls, mut left) = self.cut();
        let [mut flow, mut length, mut answers] = [const { Vec::new() }; 3];
        for call in calls {
            let (returned, after) = Call { counts: left.counts, ..call }.answered(solve);
            flow.extend(after.flow);
            length.extend(after.length);
            answers.extend(returned.to_le_bytes());
            answers.extend(after.answer);
            left.counts = after.counts;
        }
        flow.append(&mut left.flow);
        length.append(&mut left.length);
        answers.append(&mut left.answers);
        Site { flow, length, answers, counts: left.counts, ..self.clone() }
    }

    /// The floors as they would be sent singly, all on the counts as they are, and what
    /// belongs to no floor.
    pub fn cut(&self) -> (Vec<Call>, Site) {
        let mut left = self.clone();
        let items = self.floors.chunks_exact(FLOOR);
        let calls = items.map(|item| left.take_floor(&numbers(item))).collect();
        (calls, left)
    }

    fn take_floor(&mut self, item: &[u64]) -> Call {
        take(&mut self.answers, 1);
        Call {
            n: item[0],
            q: item[1],
            office: self.office,
            belts: take(&mut self.belts, item[2]),
            pairs: take(&mut self.pairs, item[3]),
            limits: take(&mut self.limits, item[4]),
            flow: take(&mut self.flow, item[5]),
            length: take(&mut self.length, item[6]),
            answer: take(&mut self.answers, 7),
            counts: self.counts.clone(),
        }
    }
}

/// So many numbers off the front, or as many as there are.
fn take(slice: &mut Vec<u8>, size: u64) -> Vec<u8> {
    let numbers = slice.chunks_exact(NUMBER).zip(0..size);
    let part: Vec<u8> = numbers.flat_map(|(number, _)| number.iter().copied()).collect();
    slice.drain(..part.len());
    part
}
