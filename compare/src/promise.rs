//! What is promised of every run, seen to of the runs that are compared.

use crate::cases::BookCase;
use crate::checks::{Checked, check_book};
use crate::flat::flat_setup;
use crate::library::{MOST_ENTRIES, RuleNumbers};
use crate::slips::{Setup, Slip};
use crate::tally::Tally;

/// What was seen of a run up to now.
pub struct Witness {
    proposals: Vec<Setup>,
    /// The setup that some box held.
    agreed: Option<Setup>,
    /// How many phases in a row were clear.
    clear_phases: usize,
    /// Whether every beat of the phase under way was clear.
    is_clear: bool,
    votes: Vec<u64>,
    decisions: Vec<u64>,
    settled: u64,
}

impl Witness {
    pub fn new(proposals: Vec<Setup>) -> Witness {
        Witness {
            proposals,
            agreed: None,
            clear_phases: 0,
            is_clear: true,
            votes: Vec::new(),
            decisions: Vec::new(),
            settled: 0,
        }
    }

    /// Sees a taken beat, in which all boxes heard one clear set or not.
    pub fn beat(&mut self, former: &[Slip], table: &[Slip], is_clear: bool) -> Checked {
        self.is_clear &= is_clear;
        for (before, now) in former.iter().zip(table) {
            if before.held.is_some() && now.held != before.held {
                return Err("a box holds another setup than before".to_owned());
            }
        }
        table.iter().filter_map(|slip| slip.held).try_for_each(|setup| self.held(setup))
    }

    fn held(&mut self, setup: Setup) -> Checked {
        if !self.proposals.contains(&setup) {
            return Err(format!("{setup:?} is held and was not proposed"));
        }
        match self.agreed.replace(setup) {
            Some(other) if other != setup => Err(format!("{other:?} and {setup:?} are held")),
            _ => Ok(()),
        }
    }

    /// Sees the table at a phase's end.
    pub fn phase(&mut self, table: &[Slip]) -> Checked {
        if self.votes.len() + table.len() <= MOST_ENTRIES {
            self.votes.extend(table.iter().map(|slip| flat_setup(slip.cast)));
            self.decisions.extend(table.iter().map(|slip| flat_setup(slip.news)));
        }
        self.clear_phases = if self.is_clear { self.clear_phases + 1 } else { 0 };
        self.is_clear = true;
        if self.clear_phases < 2 {
            return Ok(());
        }
        self.settled += 1;
        match table.iter().position(|slip| slip.held.is_none()) {
            Some(index) => Err(format!("after two clear phases box {index} holds nothing")),
            None => Ok(()),
        }
    }

    /// Enters the phases in a book, which has to take them all.
    pub fn end(self, rule: RuleNumbers, name: &str, tally: &mut Tally) -> Checked {
        let boxes = self.proposals.len();
        let rows = self.votes.len() / boxes;
        let case = BookCase {
            boxes,
            rule,
            list: vec![0; rows * boxes],
            votes: self.votes,
            each_votes: boxes,
            decisions: self.decisions,
            each_decisions: boxes,
            step: usize::MAX,
        };
        let taken = check_book(&case, &mut Tally::default())?;
        let row = format!("promise of {name}");
        tally.add(&row, "settled", self.settled);
        tally.add(&row, "rows in books", taken as u64);
        if taken == rows {
            Ok(())
        } else {
            Err(format!("a book does not take the phases: {case:?}"))
        }
    }
}
