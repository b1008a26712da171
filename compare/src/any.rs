//! Rules that are asked for in numbers, whichever they are.

use crate::faults::RuleFault;
use crate::library::RuleNumbers;
use crate::rules::{Anchored, ClearView, Majority, Present, Roster, Rule, Sizes};
use crate::sets::BoxSet;

#[derive(Clone, Copy, Debug)]
pub enum AnyRule {
    Majority(Present<Majority>),
    Sizes(Sizes),
    AnchoredMajority(Present<Anchored<Majority>>),
    AnchoredSizes(Present<Anchored<Sizes>>),
}

impl AnyRule {
    pub fn new(asked: &RuleNumbers) -> Result<AnyRule, RuleFault> {
        let roster = Roster::new(asked.boxes)?;
        let anchor = (asked.anchored != 0).then_some(asked.anchor);
        let sizes = match asked.base {
            0 => return AnyRule::of_majority(Majority::new(roster), anchor),
            1 => Sizes::thirds(roster),
            _ => Sizes::new(roster, asked.quorum, asked.clear)?,
        };
        Ok(match anchor {
            Some(anchor) => AnyRule::AnchoredSizes(Present(Anchored::new(sizes, anchor)?)),
            None => AnyRule::Sizes(sizes),
        })
    }

    fn of_majority(majority: Majority, anchor: Option<usize>) -> Result<AnyRule, RuleFault> {
        Ok(match anchor {
            Some(anchor) => AnyRule::AnchoredMajority(Present(Anchored::new(majority, anchor)?)),
            None => AnyRule::Majority(Present(majority)),
        })
    }
}

impl Rule for AnyRule {
    fn roster(&self) -> Roster {
        match self {
            AnyRule::Majority(rule) => rule.roster(),
            AnyRule::Sizes(rule) => rule.roster(),
            AnyRule::AnchoredMajority(rule) => rule.roster(),
            AnyRule::AnchoredSizes(rule) => rule.roster(),
        }
    }

    fn is_quorum(&self, set: BoxSet) -> bool {
        match self {
            AnyRule::Majority(rule) => rule.is_quorum(set),
            AnyRule::Sizes(rule) => rule.is_quorum(set),
            AnyRule::AnchoredMajority(rule) => rule.is_quorum(set),
            AnyRule::AnchoredSizes(rule) => rule.is_quorum(set),
        }
    }
}

impl ClearView for AnyRule {
    fn is_clear(&self, set: BoxSet) -> bool {
        match self {
            AnyRule::Majority(rule) => rule.is_clear(set),
            AnyRule::Sizes(rule) => rule.is_clear(set),
            AnyRule::AnchoredMajority(rule) => rule.is_clear(set),
            AnyRule::AnchoredSizes(rule) => rule.is_clear(set),
        }
    }
}

/// The name of the rule that is asked for.
pub fn name(asked: &RuleNumbers) -> &'static str {
    match (asked.base, asked.anchored) {
        (0, 0) => "majority",
        (0, _) => "anchored majority",
        (1, 0) => "thirds",
        (1, _) => "anchored thirds",
        (_, 0) => "sizes",
        (_, _) => "anchored sizes",
    }
}
