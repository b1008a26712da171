//! How the boxes come to agree.

use crate::received::Received;
use crate::rules::{Anchored, ClearView, Majority, Roster, Rule};
use crate::sets::BoxSet;
use crate::slips::{Dated, Setup, Slip};

pub trait Procedure {
    /// How many beats a phase has.
    const BEATS: u8;

    type Rule: Rule;

    fn rule(&self) -> &Self::Rule;

    /// Whether a box that heard this set may go on.
    fn admits(&self, _heard: BoxSet) -> bool {
        true
    }

    /// Whether this set is clear: two phases in which all hear such sets bring them to hold a setup.
    fn is_clear(&self, heard: BoxSet) -> bool {
        self.rule().is_quorum(heard)
    }

    /// The new slip of a box that has `slip` and heard these boxes of the table.
    fn next(&self, phase: u16, beat: u8, slip: Slip, table: &[Slip], heard: BoxSet) -> Slip;
}

fn own(slip: &Slip) -> Option<Setup> {
    Some(slip.own)
}

fn pick(slip: &Slip) -> Option<Setup> {
    slip.pick
}

fn say(slip: &Slip) -> Option<Setup> {
    slip.say
}

/// One beat to a phase.
#[derive(Clone, Copy, Debug)]
pub struct Fast<R>(pub R);

impl<R: ClearView> Procedure for Fast<R> {
    const BEATS: u8 = 1;

    type Rule = R;

    fn rule(&self) -> &R {
        &self.0
    }

    fn is_clear(&self, heard: BoxSet) -> bool {
        self.0.is_clear(heard)
    }

    fn next(&self, _phase: u16, _beat: u8, slip: Slip, table: &[Slip], heard: BoxSet) -> Slip {
        let Fast(rule) = self;
        let owns = Received::new(table, heard, own);
        let turned = slip.turned(Some(slip.own), owns.backed(rule, BoxSet::NONE));
        if !rule.is_clear(heard) {
            return turned;
        }
        let unheard = rule.roster().all().minus(heard);
        let own = owns.backed(rule, unheard).or_else(|| owns.most_often()).unwrap_or(slip.own);
        Slip { own, ..turned }
    }
}

/// Two beats to a phase; a box that heard no quorum waits.
#[derive(Clone, Copy, Debug)]
pub struct Observing<R>(pub R);

impl<R: Rule> Observing<R> {
    fn look(&self, slip: Slip, table: &[Slip], heard: BoxSet) -> Slip {
        let owns = Received::new(table, heard, own);
        Slip { own: owns.smallest().unwrap_or(slip.own), say: owns.unanimous(), ..slip.quiet() }
    }

    fn vote(&self, slip: Slip, table: &[Slip], heard: BoxSet) -> Slip {
        let says = Received::new(table, heard, say);
        let owns = Received::new(table, heard, own);
        let own = says.smallest().or_else(|| owns.smallest()).unwrap_or(slip.own);
        Slip { own, ..slip.turned(slip.say, says.unanimous()) }
    }
}

impl<R: Rule> Procedure for Observing<R> {
    const BEATS: u8 = 2;

    type Rule = R;

    fn rule(&self) -> &R {
        &self.0
    }

    fn admits(&self, heard: BoxSet) -> bool {
        self.0.is_quorum(heard)
    }

    fn next(&self, _phase: u16, beat: u8, slip: Slip, table: &[Slip], heard: BoxSet) -> Slip {
        match beat {
            0 => self.look(slip, table, heard),
            _ => self.vote(slip, table, heard),
        }
    }
}

/// Three beats to a phase.
#[derive(Clone, Copy, Debug)]
pub struct Latest<R>(pub R);

impl<R: Rule> Latest<R> {
    fn choose(&self, slip: Slip, table: &[Slip], heard: BoxSet) -> Slip {
        let own = Received::new(table, heard, own).smallest().unwrap_or(slip.own);
        let pick = self.0.is_quorum(heard).then(|| {
            let latest = heard.iter().filter_map(|index| table[index].dated).min();
            latest.map_or(own, |vote| vote.setup)
        });
        Slip { own, pick, ..slip.quiet() }
    }

    fn ready(&self, phase: u16, slip: Slip, table: &[Slip], heard: BoxSet) -> Slip {
        let say = Received::new(table, heard, pick).backed(&self.0, BoxSet::NONE);
        let dated = say.map(|setup| Dated::new(phase, setup)).or(slip.dated);
        Slip { say, dated, ..slip.quiet() }
    }

    fn vote(&self, slip: Slip, table: &[Slip], heard: BoxSet) -> Slip {
        let news = Received::new(table, heard, say).backed(&self.0, BoxSet::NONE);
        slip.turned(slip.say, news)
    }
}

impl<R: Rule> Procedure for Latest<R> {
    const BEATS: u8 = 3;

    type Rule = R;

    fn rule(&self) -> &R {
        &self.0
    }

    fn next(&self, phase: u16, beat: u8, slip: Slip, table: &[Slip], heard: BoxSet) -> Slip {
        match beat {
            0 => self.choose(slip, table, heard),
            1 => self.ready(phase, slip, table, heard),
            _ => self.vote(slip, table, heard),
        }
    }
}

/// The procedure of the standard licence.
pub type Licence = Latest<Anchored<Majority>>;

pub fn licence(roster: Roster) -> Licence {
    Latest(Anchored::on_first(Majority::new(roster)))
}
