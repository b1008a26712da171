//! Slips, votes and faults in the numbers of the library.

use crate::books::Entry;
use crate::faults::Fault;
use crate::library::{FlatSlip, MOST_ENTRIES};
use crate::slips::{Dated, Setup, Slip};

/// A fault as the library answers it.
pub fn code(fault: impl Into<Fault>) -> u64 {
    let Fault { number, place, .. } = fault.into();
    (u64::from(number) << 32) + u64::from(place)
}

pub fn code_of<F: Into<Fault>>(answer: Result<(), F>) -> u64 {
    answer.map_or_else(code, |()| 0)
}

/// A fault in words.
pub fn said(code: u64) -> String {
    match code >> 32 {
        0 => format!("taken ({code})"),
        number => format!("declined {number}, place {}", code & 0xffff_ffff),
    }
}

pub fn flat_setup(setup: Option<Setup>) -> u64 {
    setup.map_or(0, |Setup(number)| u64::from(number) + 1)
}

pub fn flat_dated(dated: Option<Dated>) -> u64 {
    dated.map_or(0, |vote| (u64::from(vote.phase.0) << 32) + flat_setup(Some(vote.setup)))
}

pub fn flat(slip: &Slip) -> FlatSlip {
    FlatSlip {
        own: flat_setup(Some(slip.own)),
        pick: flat_setup(slip.pick),
        say: flat_setup(slip.say),
        cast: flat_setup(slip.cast),
        news: flat_setup(slip.news),
        held: flat_setup(slip.held),
        dated: flat_dated(slip.dated),
    }
}

/// A number that is too large is none.
pub fn entry(number: u64) -> Entry {
    let setup = number.checked_sub(1)?;
    u32::try_from(setup).ok().map(Setup)
}

/// As much of a list as is read.
pub fn entries(numbers: &[u64]) -> Vec<Entry> {
    numbers.iter().copied().take(MOST_ENTRIES).map(entry).collect()
}
