//! The comparison itself: the library's answer to a call beside the second
//! solver's, and the count of what was seen.

use crate::call::{get, numbers, Call, BELT};
use crate::fast;
use crate::guarded;
use crate::network::{Arc, Commodity, Network, Solution};
use crate::outside;
use crate::random::Random;
use crate::site::{Site, FLOOR, MOST_FLOORS};
use crate::totes;
use crate::whole::Whole;
use std::process::ExitCode;

/// Differences beyond these are only counted.
const SHOWN: usize = 10;

/// Floors of more belts are large.
const LARGE: usize = 64;

#[derive(Clone, Copy, Default)]
pub struct Tally {
    forms: bool,
    pub solved: u64,
    pub unjoined: u64,
    pub refused: u64,
    /// Of all these, those for whole totes and those for sites.
    pub whole: u64,
    pub sites: u64,
    /// Of the sites that were gone through.
    floors: u64,
    differences: usize,
}

impl Tally {
    /// With `forms` the fast form stands in for the library.
    pub fn new(forms: bool) -> Tally {
        Tally { forms, ..Tally::default() }
    }

    fn calls(&self) -> u64 {
        self.solved + self.unjoined + self.refused
    }

    /// Has the library and the second solver answer; hands back the library's.
    pub fn compare(
        &mut self,
        name: &str,
        call: &Call,
        solve: fn(&Network, u64) -> Solution,
    ) -> Call {
        self.compare_with(name, call, call.answered(solve))
    }

    /// For a share of the calls whole totes are compared too.
    pub fn compare_with(&mut self, name: &str, call: &Call, wanted: (u64, Call)) -> Call {
        self.count(wanted.0, &wanted.1);
        let found = match self.forms {
            true => Ok(call.answered(fast::solve)),
            false => guarded::call_library(call),
        };
        let verdict = found.as_ref().map_err(String::clone).and_then(|found| {
            first_difference((wanted.0, &wanted.1), (found.0, &found.1))?;
            checked(call, found)
        });
        self.judge(name, Some(call), verdict);
        let mut random = Random::new(self.calls());
        if random.one_in(share(call, wanted.0)) {
            self.compare_whole(name, &totes::lent(call, &mut random), &wanted.1);
        }
        found.map_or(call.clone(), |(_, after)| after)
    }

    /// The call of request C-15, given what a solving call leaves. With `forms` nothing
    /// stands in for the library, and the second solver's totes are looked at alone.
    pub fn compare_whole(&mut self, name: &str, whole: &Whole, solved: &Call) -> Whole {
        let (due, wanted) = whole.answered(solved);
        self.count(due, &wanted.call);
        self.whole += 1;
        let found = match self.forms {
            true => Ok((due, wanted.clone())),
            false => guarded::call_whole(whole),
        };
        let verdict = found.as_ref().map_err(String::clone).and_then(|(returned, after)| {
            first_difference((due, &wanted.call), (*returned, &after.call))?;
            same_bytes("totes", &wanted.totes, &after.totes)?;
            checked_totes(whole, *returned, after)
        });
        let name = format!("{name}, totes of {} bytes", whole.totes.len());
        self.judge(&name, Some(&whole.call), verdict);
        found.map_or(whole.clone(), |(_, after)| after)
    }

    /// The call of request C-14. A site that was gone through counts as solved, whatever
    /// became of its floors.
    pub fn compare_site(&mut self, name: &str, site: &Site, wanted: (u64, Site)) -> Site {
        self.sites += 1;
        if wanted.0 == 0 {
            self.solved += 1;
            self.floors += site.number_of_floors() as u64;
        } else {
            self.refused += 1;
        }
        let found = match self.forms {
            true => Ok(site.answered(fast::solve)),
            false => guarded::call_site(site),
        };
        let verdict = found.as_ref().map_err(String::clone).and_then(|(returned, after)| {
            same_number(wanted.0, *returned)?;
            let mut slices = site_slices(&wanted.1, after).into_iter();
            slices.try_for_each(|(name, wanted, found)| same_bytes(name, wanted, found))?;
            checked_floors(site, *returned, after)
        });
        self.judge(name, Some(site), verdict);
        found.map_or(site.clone(), |(_, after)| after)
    }

    fn count(&mut self, returned: u64, after: &Call) {
        match returned {
            0 if get(&after.answer, 5) == 0 => self.unjoined += 1,
            0 => self.solved += 1,
            _ => self.refused += 1,
        }
    }

    pub fn judge(&mut self, name: &str, call: Option<&dyn Shown>, verdict: Result<(), String>) {
        let Err(difference) = verdict else { return };
        self.differences += 1;
        if self.differences <= SHOWN {
            println!("DIFFERENT {name}: {difference}");
            call.inspect(|call| call.describe());
        }
    }

    pub fn close(&self) -> ExitCode {
        let Tally { solved, unjoined, refused, whole, sites, floors, differences, .. } = self;
        println!(
            "compare: {} calls ({solved} solved, {unjoined} unjoined, {refused} refused; {whole} \
             of them for whole totes, {sites} for sites of {floors} floors), {differences} \
             differences",
            self.calls()
        );
        ExitCode::from(u8::from(*differences > 0))
    }
}

/// Of how many calls one is for whole totes as well. On a large floor the library takes as
/// long as the second solver.
fn share(call: &Call, returned: u64) -> u64 {
    let large = returned == 0 && call.belts.len() / BELT > LARGE;
    if large {
        3
    } else {
        1
    }
}

pub fn holds(fact: bool, otherwise: &str) -> Result<(), String> {
    fact.then_some(()).ok_or(otherwise.into())
}

fn first_difference(wanted: (u64, &Call), found: (u64, &Call)) -> Result<(), String> {
    same_number(wanted.0, found.0)?;
    let mut slices = slices(wanted.1, found.1).into_iter();
    slices.try_for_each(|(name, wanted, found)| same_bytes(name, wanted, found))
}

fn same_number(wanted: u64, found: u64) -> Result<(), String> {
    holds(wanted == found, &format!("returned {found}, not {wanted}"))
}

fn same_bytes(name: &str, wanted: &[u8], found: &[u8]) -> Result<(), String> {
    match wanted.iter().zip(found).position(|(a, b)| a != b) {
        Some(at) => Err(format!("{name}: byte {at} is {}, not {}", found[at], wanted[at])),
        None => Ok(()),
    }
}

/// Comes after the comparison, whose bytes may be anything: these are plausible.
fn checked(call: &Call, (returned, after): &(u64, Call)) -> Result<(), String> {
    match returned {
        0 => outside::check(call, after).map_err(String::from),
        _ => Ok(()),
    }
}

fn checked_totes(whole: &Whole, returned: u64, after: &Whole) -> Result<(), String> {
    match returned {
        0 => outside::check_totes(whole, after).map_err(String::from),
        _ => Ok(()),
    }
}

fn checked_floors(site: &Site, returned: u64, after: &Site) -> Result<(), String> {
    match returned {
        0 => outside::check_site(site, after).map_err(String::from),
        _ => Ok(()),
    }
}

fn slices<'a>(a: &'a Call, b: &'a Call) -> [(&'static str, &'a [u8], &'a [u8]); 7] {
    [
        ("belts", &a.belts, &b.belts),
        ("pairs", &a.pairs, &b.pairs),
        ("limits", &a.limits, &b.limits),
        ("flow", &a.flow, &b.flow),
        ("length", &a.length, &b.length),
        ("answer", &a.answer, &b.answer),
        ("counts", &a.counts, &b.counts),
    ]
}

fn site_slices<'a>(a: &'a Site, b: &'a Site) -> [(&'static str, &'a [u8], &'a [u8]); 8] {
    [
        ("floors", &a.floors, &b.floors),
        ("belts", &a.belts, &b.belts),
        ("pairs", &a.pairs, &b.pairs),
        ("limits", &a.limits, &b.limits),
        ("flow", &a.flow, &b.flow),
        ("length", &a.length, &b.length),
        ("answers", &a.answers, &b.answers),
        ("counts", &a.counts, &b.counts),
    ]
}

pub trait Shown {
    fn describe(&self);
}

/// Enough to make the call again.
impl Shown for Call {
    fn describe(&self) {
        let net = self.network();
        let belt = |arc: &Arc| match arc.mark {
            0 => format!(" {}-{}:{}", arc.tail, arc.head, arc.capacity),
            mark => format!(" {}-{}:{}*{mark}", arc.tail, arc.head, arc.capacity),
        };
        let pair = |pair: &Commodity| format!(" {}-{}", pair.source, pair.sink);
        let belts: String = net.arcs.iter().take(256).map(belt).collect();
        let pairs: String = net.commodities.iter().take(32).map(pair).collect();
        println!("  n {} q {} office {}", self.n, self.q, self.office);
        println!("  {} belts{belts}", net.arcs.len());
        println!("  {} pairs{pairs}", net.commodities.len());
        println!("  limits {:?}", net.limits);
        println!("  counts {:?}", numbers(&self.counts));
    }
}

/// The floors themselves are too long to be shown: seed and name lead to them.
impl Shown for Site {
    fn describe(&self) {
        let sizes = site_slices(self, self).map(|(name, slice, _)| (name, slice.len()));
        println!("  office {} bytes {sizes:?}", self.office);
        for item in self.floors.chunks(FLOOR).take(MOST_FLOORS + 1) {
            println!("  floor {:?}", numbers(item));
        }
        println!("  counts {:?}", numbers(&self.counts));
    }
}
