//! Rows of votes, and the two guards that each must meet.

use crate::faults::BookFault;
use crate::rules::{Roster, Rule};
use crate::sets::BoxSet;
use crate::slips::Setup;

/// A vote or a decision, or none.
pub type Entry = Option<Setup>;

/// A book on a list that its owner lends.
#[derive(Debug)]
pub struct Book<'a> {
    boxes: usize,
    list: &'a mut [Entry],
    written: usize,
}

/// The boxes that have this setup in the row.
fn voters(row: &[Entry], setup: Setup) -> BoxSet {
    (0..row.len()).filter(|&index| row[index] == Some(setup)).collect()
}

/// The boxes that now vote against a quorum of this earlier row that they were part of.
fn defectors(rule: &impl Rule, row: &[Entry], votes: &[Entry]) -> BoxSet {
    let changed = |&index: &usize| match (row[index], votes[index]) {
        (Some(then), Some(now)) => then != now && rule.is_quorum(voters(row, then)),
        _ => false,
    };
    (0..row.len()).filter(changed).collect()
}

/// The boxes whose decision lacks a quorum of votes.
fn unbacked(rule: &impl Rule, votes: &[Entry], decisions: &[Entry]) -> BoxSet {
    let lacks = |&index: &usize| {
        decisions[index].is_some_and(|setup| !rule.is_quorum(voters(votes, setup)))
    };
    (0..decisions.len()).filter(lacks).collect()
}

impl<'a> Book<'a> {
    pub fn open(roster: Roster, list: &'a mut [Entry]) -> Book<'a> {
        Book { boxes: roster.boxes(), list, written: 0 }
    }

    pub fn list(&self) -> &[Entry] {
        self.list
    }

    fn rows(&self) -> usize {
        self.list.len() / self.boxes
    }

    /// Writes the votes as the next row.
    pub fn enter(
        &mut self,
        rule: &impl Rule,
        votes: &[Entry],
        decisions: &[Entry],
    ) -> Result<(), BookFault> {
        let boxes = self.boxes;
        if rule.roster().boxes() != boxes {
            return Err(BookFault::OtherRoster);
        }
        if votes.len() != boxes {
            return Err(BookFault::Length(1));
        }
        if decisions.len() != boxes {
            return Err(BookFault::Length(2));
        }
        if self.written == self.rows() {
            return Err(BookFault::NoRow);
        }
        self.check(rule, votes, decisions)?;
        let start = self.written * boxes;
        self.list[start..start + boxes].copy_from_slice(votes);
        self.written += 1;
        Ok(())
    }

    fn check(
        &self,
        rule: &impl Rule,
        votes: &[Entry],
        decisions: &[Entry],
    ) -> Result<(), BookFault> {
        let earlier = self.list.chunks_exact(self.boxes).take(self.written);
        let defecting =
            earlier.fold(BoxSet::NONE, |set, row| set.with(defectors(rule, row, votes)));
        if let Some(index) = defecting.lowest() {
            return Err(BookFault::Defection(index));
        }
        match unbacked(rule, votes, decisions).lowest() {
            Some(index) => Err(BookFault::Unbacked(index)),
            None => Ok(()),
        }
    }
}
