//! A run of a procedure, beat by beat.

use crate::faults::RunFault;
use crate::procedures::Procedure;
use crate::rules::Rule;
use crate::sets::BoxSet;
use crate::slips::{Setup, Slip};

/// The phase and the beat of it that are due; after phase 65,535 the phase is 65,536.
#[derive(Clone, Copy, Debug, Default, PartialEq, Eq)]
pub struct Due {
    pub phase: u32,
    pub beat: u8,
}

#[derive(Clone, Debug)]
pub struct Run<P> {
    procedure: P,
    due: Due,
}

fn long(rank: usize, length: usize, boxes: usize) -> Result<(), RunFault> {
    if length == boxes { Ok(()) } else { Err(RunFault::Length(rank)) }
}

impl<P: Procedure> Run<P> {
    /// Opens a run on these proposals, and fills the table.
    pub fn open(procedure: P, proposals: &[Setup], table: &mut [Slip]) -> Result<Run<P>, RunFault> {
        let boxes = procedure.rule().roster().boxes();
        long(1, proposals.len(), boxes)?;
        long(2, table.len(), boxes)?;
        for (slip, &proposal) in table.iter_mut().zip(proposals) {
            *slip = Slip::opening(proposal);
        }
        Ok(Run { procedure, due: Due::default() })
    }

    pub fn procedure(&self) -> &P {
        &self.procedure
    }

    pub fn due(&self) -> Due {
        self.due
    }

    /// Works one beat. The table then has the new slips, and the sheet the former ones.
    pub fn beat(
        &mut self,
        table: &mut [Slip],
        sheet: &mut [Slip],
        heard: &[BoxSet],
    ) -> Result<(), RunFault> {
        let boxes = self.procedure.rule().roster().boxes();
        long(1, table.len(), boxes)?;
        long(2, sheet.len(), boxes)?;
        long(3, heard.len(), boxes)?;
        let phase = u16::try_from(self.due.phase).map_err(|_| RunFault::Closed)?;
        self.check(heard)?;
        sheet.copy_from_slice(table);
        for ((new, &slip), &set) in table.iter_mut().zip(&*sheet).zip(heard) {
            *new = self.procedure.next(phase, self.due.beat, slip, sheet, set);
        }
        self.advance();
        Ok(())
    }

    fn check(&self, heard: &[BoxSet]) -> Result<(), RunFault> {
        let roster = self.procedure.rule().roster();
        if let Some(index) = heard.iter().position(|&set| !roster.holds(set)) {
            return Err(RunFault::Stranger(index));
        }
        match heard.iter().position(|&set| !self.procedure.admits(set)) {
            Some(index) => Err(RunFault::Wait(index)),
            None => Ok(()),
        }
    }

    fn advance(&mut self) {
        self.due.beat += 1;
        if self.due.beat == P::BEATS {
            self.due = Due { phase: self.due.phase + 1, beat: 0 };
        }
    }

    pub fn read<'a>(&self, table: &'a [Slip], index: usize) -> Result<&'a Slip, RunFault> {
        let boxes = self.procedure.rule().roster().boxes();
        if index >= boxes {
            return Err(RunFault::NoBox);
        }
        long(1, table.len(), boxes)?;
        Ok(&table[index])
    }
}
