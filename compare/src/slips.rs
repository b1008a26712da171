//! What a box knows, and what the others hear of it.

use std::cmp::Reverse;

/// A setup number; the smaller comes first.
#[derive(Clone, Copy, Debug, Default, PartialEq, Eq, PartialOrd, Ord)]
pub struct Setup(pub u32);

/// A vote with its phase; the greater phase comes first, then the setup that does.
#[derive(Clone, Copy, Debug, PartialEq, Eq, PartialOrd, Ord)]
pub struct Dated {
    pub phase: Reverse<u16>,
    pub setup: Setup,
}

impl Dated {
    pub fn new(phase: u16, setup: Setup) -> Dated {
        Dated { phase: Reverse(phase), setup }
    }
}

#[derive(Clone, Copy, Debug, Default, PartialEq, Eq)]
pub struct Slip {
    pub own: Setup,
    pub pick: Option<Setup>,
    pub say: Option<Setup>,
    pub cast: Option<Setup>,
    pub news: Option<Setup>,
    pub held: Option<Setup>,
    pub dated: Option<Dated>,
}

impl Slip {
    pub fn opening(proposal: Setup) -> Slip {
        Slip { own: proposal, ..Slip::default() }
    }

    /// The slip with this cast and news, of which the news is held from now on.
    pub fn turned(self, cast: Option<Setup>, news: Option<Setup>) -> Slip {
        Slip { cast, news, held: news.or(self.held), ..self }
    }

    pub fn quiet(self) -> Slip {
        self.turned(None, None)
    }
}
