//! Why a call is declined.

/// A fault as it is reported.
#[derive(Clone, Copy, Debug, PartialEq, Eq)]
pub struct Fault {
    pub number: u32,
    pub layer: &'static str,
    pub place: u32,
}

#[derive(Clone, Copy, Debug, PartialEq, Eq)]
pub enum RuleFault {
    Roster,
    Size,
    NoBox,
}

#[derive(Clone, Copy, Debug, PartialEq, Eq)]
pub enum RunFault {
    Rule(RuleFault),
    NoBox,
    /// With the rank of the list in the call, from 1.
    Length(usize),
    Closed,
    /// With the first box whose set names a box that the roster lacks.
    Stranger(usize),
    /// With a box that must wait.
    Wait(usize),
}

#[derive(Clone, Copy, Debug, PartialEq, Eq)]
pub enum BookFault {
    OtherRoster,
    Length(usize),
    NoRow,
    Defection(usize),
    Unbacked(usize),
}

#[derive(Clone, Copy, Debug, PartialEq, Eq)]
pub enum TextReason {
    Long,
    Key,
    Value,
    Run(RunFault),
}

/// A text's fault, with its line and column from 1.
#[derive(Clone, Copy, Debug, PartialEq, Eq)]
pub struct TextFault {
    pub reason: TextReason,
    pub line: usize,
    pub column: usize,
}

impl From<RuleFault> for Fault {
    fn from(fault: RuleFault) -> Fault {
        let number = match fault {
            RuleFault::Roster => 1,
            RuleFault::Size => 3,
            RuleFault::NoBox => 4,
        };
        Fault { number, layer: "rule", place: 0 }
    }
}

impl From<RunFault> for Fault {
    fn from(fault: RunFault) -> Fault {
        let (number, place) = match fault {
            RunFault::Rule(fault) => return fault.into(),
            RunFault::NoBox => (4, 0),
            RunFault::Length(rank) => (5, rank),
            RunFault::Closed => (6, 0),
            RunFault::Stranger(index) => (7, index),
            RunFault::Wait(index) => (8, index),
        };
        Fault { number, layer: "run", place: place as u32 }
    }
}

impl From<BookFault> for Fault {
    fn from(fault: BookFault) -> Fault {
        let (number, place) = match fault {
            BookFault::OtherRoster => (2, 0),
            BookFault::Length(rank) => (5, rank),
            BookFault::NoRow => (9, 0),
            BookFault::Defection(index) => (10, index),
            BookFault::Unbacked(index) => (11, index),
        };
        Fault { number, layer: "book", place: place as u32 }
    }
}

impl From<TextReason> for Fault {
    fn from(reason: TextReason) -> Fault {
        let number = match reason {
            TextReason::Long => 12,
            TextReason::Key => 13,
            TextReason::Value => 14,
            TextReason::Run(fault) => return fault.into(),
        };
        Fault { number, layer: "text", place: 0 }
    }
}

impl From<RuleFault> for RunFault {
    fn from(fault: RuleFault) -> RunFault {
        RunFault::Rule(fault)
    }
}

impl From<RuleFault> for TextReason {
    fn from(fault: RuleFault) -> TextReason {
        TextReason::Run(fault.into())
    }
}
