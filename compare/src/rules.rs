//! Rules: which sets of boxes are quorums, and which are clear.

use crate::faults::RuleFault;
use crate::sets::{BoxSet, MOST};

/// A roster of 1 to 32 boxes.
#[derive(Clone, Copy, Debug, PartialEq, Eq)]
pub struct Roster {
    boxes: usize,
    all: BoxSet,
}

impl Roster {
    pub fn new(boxes: usize) -> Result<Roster, RuleFault> {
        if (1..=MOST).contains(&boxes) {
            Ok(Roster { boxes, all: BoxSet::below(boxes) })
        } else {
            Err(RuleFault::Roster)
        }
    }

    pub fn boxes(self) -> usize {
        self.boxes
    }

    pub fn all(self) -> BoxSet {
        self.all
    }

    pub fn holds(self, set: BoxSet) -> bool {
        set.is_within(self.all)
    }
}

pub trait Rule {
    fn roster(&self) -> Roster;
    fn is_quorum(&self, set: BoxSet) -> bool;
}

pub trait ClearView: Rule {
    fn is_clear(&self, set: BoxSet) -> bool;
}

/// More than half of the boxes.
#[derive(Clone, Copy, Debug)]
pub struct Majority {
    roster: Roster,
}

impl Majority {
    pub fn new(roster: Roster) -> Majority {
        Majority { roster }
    }
}

impl Rule for Majority {
    fn roster(&self) -> Roster {
        self.roster
    }

    fn is_quorum(&self, set: BoxSet) -> bool {
        self.roster.holds(set) && 2 * set.size() > self.roster.boxes
    }
}

/// Quorums of so many boxes or more, and clear sets of so many or more.
#[derive(Clone, Copy, Debug)]
pub struct Sizes {
    roster: Roster,
    quorum: usize,
    clear: usize,
}

impl Sizes {
    pub fn new(roster: Roster, quorum: usize, clear: usize) -> Result<Sizes, RuleFault> {
        let boxes = roster.boxes;
        if quorum <= clear && clear <= boxes && 2 * quorum + clear > 2 * boxes {
            Ok(Sizes { roster, quorum, clear })
        } else {
            Err(RuleFault::Size)
        }
    }

    pub fn thirds(roster: Roster) -> Sizes {
        let size = 2 * roster.boxes / 3 + 1;
        Sizes { roster, quorum: size, clear: size }
    }
}

impl Rule for Sizes {
    fn roster(&self) -> Roster {
        self.roster
    }

    fn is_quorum(&self, set: BoxSet) -> bool {
        self.roster.holds(set) && set.size() >= self.quorum
    }
}

impl ClearView for Sizes {
    fn is_clear(&self, set: BoxSet) -> bool {
        self.roster.holds(set) && set.size() >= self.clear
    }
}

/// The quorums of another rule that contain one box.
#[derive(Clone, Copy, Debug)]
pub struct Anchored<R> {
    below: R,
    anchor: usize,
}

impl<R: Rule> Anchored<R> {
    pub fn new(below: R, anchor: usize) -> Result<Anchored<R>, RuleFault> {
        if anchor < below.roster().boxes {
            Ok(Anchored { below, anchor })
        } else {
            Err(RuleFault::NoBox)
        }
    }

    /// Anchored on box 0, which every roster has.
    pub fn on_first(below: R) -> Anchored<R> {
        Anchored { below, anchor: 0 }
    }
}

impl<R: Rule> Rule for Anchored<R> {
    fn roster(&self) -> Roster {
        self.below.roster()
    }

    fn is_quorum(&self, set: BoxSet) -> bool {
        set.has(self.anchor) && self.below.is_quorum(set)
    }
}

/// The quorums of another rule; only the whole roster is clear.
#[derive(Clone, Copy, Debug)]
pub struct Present<R>(pub R);

impl<R: Rule> Rule for Present<R> {
    fn roster(&self) -> Roster {
        self.0.roster()
    }

    fn is_quorum(&self, set: BoxSet) -> bool {
        self.0.is_quorum(set)
    }
}

impl<R: Rule> ClearView for Present<R> {
    fn is_clear(&self, set: BoxSet) -> bool {
        set == self.0.roster().all
    }
}
