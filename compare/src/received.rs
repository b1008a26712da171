//! What a box receives in a beat, and what is found in it.

use std::cmp::Reverse;

use crate::rules::Rule;
use crate::sets::BoxSet;
use crate::slips::{Setup, Slip};

/// What the heard boxes sent: of each the field of its slip.
#[derive(Clone, Copy)]
pub struct Received<'a, F> {
    table: &'a [Slip],
    heard: BoxSet,
    field: F,
}

impl<'a, F: Fn(&Slip) -> Option<Setup>> Received<'a, F> {
    pub fn new(table: &'a [Slip], heard: BoxSet, field: F) -> Self {
        Received { table, heard, field }
    }

    fn sent(&self, index: usize) -> Option<Setup> {
        (self.field)(&self.table[index])
    }

    /// Each setup received with its senders, in the order of the lowest of these.
    fn groups(&self) -> impl Iterator<Item = (Setup, BoxSet)> {
        let mut rest = self.heard;
        std::iter::from_fn(move || {
            while let Some(lowest) = rest.lowest() {
                let sent = self.sent(lowest);
                let same: BoxSet = rest.iter().filter(|&index| self.sent(index) == sent).collect();
                rest = rest.minus(same);
                if let Some(setup) = sent {
                    return Some((setup, same));
                }
            }
            None
        })
    }

    pub fn smallest(&self) -> Option<Setup> {
        self.heard.iter().filter_map(|index| self.sent(index)).min()
    }

    /// The setup whose senders are a quorum together with the boxes of `others`.
    pub fn backed(&self, rule: &impl Rule, others: BoxSet) -> Option<Setup> {
        self.groups()
            .find(|(_, senders)| rule.is_quorum(senders.with(others)))
            .map(|(setup, _)| setup)
    }

    pub fn unanimous(&self) -> Option<Setup> {
        let mut sent = self.heard.iter().map(|index| self.sent(index));
        let first = sent.next()??;
        sent.all(|other| other == Some(first)).then_some(first)
    }

    pub fn most_often(&self) -> Option<Setup> {
        self.groups()
            .max_by_key(|&(setup, senders)| (senders.size(), Reverse(setup)))
            .map(|(setup, _)| setup)
    }
}
