//! Random rules, proposals and heard sets.

use crate::any::AnyRule;
use crate::library::{MOST_ENTRIES, RuleNumbers};
use crate::random::Random;
use crate::rules::{ClearView, Roster, Rule};
use crate::sets::{BoxSet, MOST};

/// A rule of so many boxes that can be made.
pub fn sound_rule(random: &mut Random, boxes: usize) -> RuleNumbers {
    let clear = random.within(2 * boxes / 3 + 1, boxes);
    let quorum = random.within((2 * boxes - clear) / 2 + 1, clear);
    RuleNumbers {
        boxes,
        base: random.below(3) as u32,
        quorum,
        clear,
        anchored: random.below(2) as u32,
        anchor: random.below(boxes),
    }
}

/// The rule with one of its numbers changed, so that it may not be made.
pub fn changed_rule(random: &mut Random, rule: RuleNumbers) -> RuleNumbers {
    let boxes = rule.boxes;
    let far = [
        usize::MAX,
        1 << 63,
        (1 << 63) + boxes,
        1 << 32,
        (1 << 32) + boxes,
        64,
        33,
        32,
        boxes + 1,
        0,
        1,
    ];
    let near = random.below(2 * boxes + 3);
    let number = if random.once_in(2) { random.pick(&far) } else { near };
    match random.below(6) {
        0 => RuleNumbers {
            boxes: random.pick(&[0, 0, 33, 34, 1 << 32, (1 << 32) + 3, usize::MAX]),
            ..rule
        },
        1 => RuleNumbers { boxes: random.below(36), ..rule },
        2 => RuleNumbers { base: random.pick(&[2, 3, u32::MAX]), quorum: number, ..rule },
        3 => RuleNumbers { base: 2, clear: number, ..rule },
        4 => RuleNumbers { base: 2, quorum: number, clear: number, ..rule },
        _ => RuleNumbers { anchored: random.pick(&[1, 2, u32::MAX]), anchor: number, ..rule },
    }
}

/// So many proposals, of a small or a wide choice.
pub fn proposals(random: &mut Random, count: usize) -> Vec<u32> {
    let pool: Vec<u32> = match random.below(8) {
        0 => vec![random.word()],
        1 => (0..2).collect(),
        2 => (0..3).map(|_| random.word()).collect(),
        3 => vec![0, 1, u32::MAX - 1, u32::MAX],
        4 => (0..6).collect(),
        5 => vec![5, 5, 5, 5, 5, 5, 3, 9],
        6 => vec![8, 8, 8, 8, 8, 8, 8, 8, 8, random.word()],
        _ => (0..100).map(|_| random.word()).collect(),
    };
    (0..count).map(|_| random.pick(&pool)).collect()
}

/// A part of a set that has some property, from which no box can be dropped.
fn least_of(random: &mut Random, all: BoxSet, is_good: impl Fn(BoxSet) -> bool) -> BoxSet {
    let mut boxes: Vec<usize> = all.iter().collect();
    random.shuffle(&mut boxes);
    boxes.into_iter().map(BoxSet::single).fold(all, |set, single| {
        let without = set.minus(single);
        if is_good(without) { without } else { set }
    })
}

/// A set of the roster with some property from which no box can be dropped.
fn least(random: &mut Random, roster: Roster, is_good: impl Fn(BoxSet) -> bool) -> BoxSet {
    least_of(random, roster.all(), is_good)
}

fn without_some(random: &mut Random, roster: Roster, most: usize) -> BoxSet {
    (0..random.within(1, most)).fold(roster.all(), |set, _| set.minus(one_of(random, roster)))
}

fn one_of(random: &mut Random, roster: Roster) -> BoxSet {
    BoxSet::single(random.below(roster.boxes()))
}

/// How the heard set of one box comes about.
#[derive(Clone, Copy, Debug)]
pub enum Sort {
    All,
    NearAll,
    Random,
    Few,
    Many,
    LeastQuorum,
    Quorum,
    NoQuorum,
    LeastClear,
    NotClear,
    Single,
    Empty,
}

const SORTS: [Sort; 12] = [
    Sort::All,
    Sort::NearAll,
    Sort::Random,
    Sort::Few,
    Sort::Many,
    Sort::LeastQuorum,
    Sort::Quorum,
    Sort::NoQuorum,
    Sort::LeastClear,
    Sort::NotClear,
    Sort::Single,
    Sort::Empty,
];

const QUORUM_SORTS: [Sort; 4] = [Sort::All, Sort::LeastQuorum, Sort::Quorum, Sort::Quorum];

const LARGE_SORTS: [Sort; 4] = [Sort::All, Sort::NearAll, Sort::LeastQuorum, Sort::LeastClear];

pub fn set(random: &mut Random, rule: &AnyRule, sort: Sort) -> BoxSet {
    let roster = rule.roster();
    let strangers = BoxSet(u32::MAX).minus(roster.all());
    let within = |word: u32| BoxSet(word).minus(strangers);
    match sort {
        Sort::All => roster.all(),
        Sort::NearAll => without_some(random, roster, 3),
        Sort::Random => within(random.word()),
        Sort::Few => within(random.word() & random.word()),
        Sort::Many => within(random.word() | random.word()),
        Sort::LeastQuorum => least(random, roster, |set| rule.is_quorum(set)),
        Sort::Quorum => {
            let more = within(random.word() & random.word());
            least(random, roster, |set| rule.is_quorum(set)).with(more)
        }
        Sort::NoQuorum => less_one(random, roster, |set| rule.is_quorum(set)),
        Sort::LeastClear => least(random, roster, |set| rule.is_clear(set)),
        Sort::NotClear => less_one(random, roster, |set| rule.is_clear(set)),
        Sort::Single => one_of(random, roster),
        Sort::Empty => BoxSet::NONE,
    }
}

/// A set that lacks one box, or a few more, of one with some property.
fn less_one(random: &mut Random, roster: Roster, is_good: impl Fn(BoxSet) -> bool) -> BoxSet {
    let mut members: Vec<usize> = least(random, roster, is_good).iter().collect();
    random.shuffle(&mut members);
    members.into_iter().skip(1).collect()
}

pub fn any_set(random: &mut Random, rule: &AnyRule) -> BoxSet {
    let sort = random.pick(&SORTS);
    set(random, rule, sort)
}

/// How the cable is while a run lasts.
#[derive(Clone, Copy, Debug)]
pub enum Cable {
    /// Each box hears some set.
    Wild,
    /// Each box hears a set of one sort, which differs from beat to beat.
    Sorted,
    /// Each box hears a large set.
    Lossy,
    /// Each box hears a quorum.
    Quorums,
    /// The boxes of one quorum mostly hear that quorum, and the others some quorum.
    Camp,
    /// Some boxes hear one quorum, often those that heard in the beat before, and the others nobody.
    Passing,
    /// Under Latest, one box in each phase becomes ready to vote, and the phases after it begin
    /// without the boxes that did.
    Staged,
    /// All boxes hear one set.
    Common,
    /// All boxes hear one clear set.
    Clear,
    /// It changes from beat to beat.
    Changing,
}

/// All of them, the one that changes last.
const CABLES: [Cable; 12] = [
    Cable::Wild,
    Cable::Sorted,
    Cable::Lossy,
    Cable::Quorums,
    Cable::Quorums,
    Cable::Camp,
    Cable::Camp,
    Cable::Passing,
    Cable::Passing,
    Cable::Common,
    Cable::Clear,
    Cable::Changing,
];

/// What makes the heard sets of a run.
pub struct Hearing {
    rule: AnyRule,
    cable: Cable,
    /// A quorum that some boxes hear, for the cables that have one.
    camp: BoxSet,
    /// Of a staged cable, the boxes that became ready to vote.
    ready: BoxSet,
    /// Of a staged cable, the beat that comes next in its phase.
    stage: usize,
    /// The boxes that are off.
    off: BoxSet,
    /// A stranger is heard in one of so many beats, or never.
    strangers: Option<usize>,
}

impl Hearing {
    pub fn new(random: &mut Random, rule: AnyRule, is_latest: bool) -> Hearing {
        let is_staged = is_latest && random.once_in(4);
        let cable = if is_staged { Cable::Staged } else { random.pick(&CABLES) };
        let off = if random.once_in(6) { one_of(random, rule.roster()) } else { BoxSet::NONE };
        let sort = random.pick(&QUORUM_SORTS);
        let camp = set(random, &rule, sort);
        let strangers = random.pick(&[Some(6), Some(30), None]);
        Hearing { rule, cable, camp, ready: BoxSet::NONE, stage: 0, off, strangers }
    }

    /// Boxes that always hear a quorum.
    pub fn quorums(rule: AnyRule) -> Hearing {
        Hearing {
            rule,
            cable: Cable::Quorums,
            camp: BoxSet::NONE,
            ready: BoxSet::NONE,
            stage: 0,
            off: BoxSet::NONE,
            strangers: None,
        }
    }

    /// The heard set of each box in one more beat.
    pub fn beat(&mut self, random: &mut Random) -> Vec<u32> {
        let cable = match self.cable {
            Cable::Changing => random.pick(&CABLES[..11]),
            cable => cable,
        };
        let mut heard = match cable {
            Cable::Passing => self.passing(random),
            Cable::Staged => self.staged(random),
            _ => self.sets(random, cable),
        };
        self.switch_off(random, &mut heard);
        self.stray(random, &mut heard);
        heard.into_iter().map(|set| set.0).collect()
    }

    fn sets(&self, random: &mut Random, cable: Cable) -> Vec<BoxSet> {
        let rule = &self.rule;
        let boxes = rule.roster().boxes();
        let sorts: &[Sort] = match cable {
            Cable::Lossy => &LARGE_SORTS,
            Cable::Quorums | Cable::Camp => &QUORUM_SORTS,
            Cable::Clear => &[Sort::All, Sort::LeastClear],
            _ => &SORTS,
        };
        let sort = random.pick(sorts);
        let one = set(random, rule, sort);
        let each = |index: usize| match cable {
            Cable::Common | Cable::Clear => one,
            Cable::Sorted => set(random, rule, sort),
            Cable::Camp if self.camp.has(index) && !random.once_in(30) => self.camp,
            _ => {
                let sort = random.pick(sorts);
                set(random, rule, sort)
            }
        };
        (0..boxes).map(each).collect()
    }

    fn passing(&mut self, random: &mut Random) -> Vec<BoxSet> {
        let roster = self.rule.roster();
        let anew = !self.rule.is_quorum(self.camp) || random.once_in(3);
        let one = if anew { set(random, &self.rule, Sort::LeastQuorum) } else { self.camp };
        let sort = random.pick(&[Sort::LeastQuorum, Sort::LeastQuorum, Sort::Single, Sort::All]);
        let hearers = set(random, &self.rule, sort);
        if self.rule.is_quorum(hearers) {
            self.camp = hearers;
        }
        let heard = |index| if hearers.has(index) { one } else { BoxSet::NONE };
        (0..roster.boxes()).map(heard).collect()
    }

    fn staged(&mut self, random: &mut Random) -> Vec<BoxSet> {
        let roster = self.rule.roster();
        let stage = self.stage;
        self.stage = (stage + 1) % 3;
        let hearers = match stage {
            0 => self.begun(random),
            1 => one_of(random, roster),
            _ if random.once_in(3) => one_of(random, roster),
            _ => BoxSet::NONE,
        };
        if stage == 1 {
            self.ready = self.ready.with(hearers);
        }
        let heard = |index| if hearers.has(index) { self.camp } else { BoxSet::NONE };
        (0..roster.boxes()).map(heard).collect()
    }

    /// Who hears the camp in the first beat of a phase: mostly a new camp itself.
    fn begun(&mut self, random: &mut Random) -> BoxSet {
        let all = self.rule.roster().all();
        let rest = all.minus(self.ready);
        let is_whole = !self.rule.is_quorum(rest) || random.once_in(4);
        let from = if is_whole { all } else { rest };
        if is_whole {
            self.ready = BoxSet::NONE;
        }
        self.camp = least_of(random, from, |set| self.rule.is_quorum(set));
        self.camp
    }

    /// Nobody hears a box that is off, and at its place stands what some other box hears.
    fn switch_off(&self, random: &mut Random, heard: &mut [BoxSet]) {
        for set in &mut *heard {
            *set = set.minus(self.off);
        }
        for index in self.off {
            heard[index] = heard[random.below(heard.len())];
        }
    }

    fn stray(&self, random: &mut Random, heard: &mut [BoxSet]) {
        let boxes = heard.len();
        let strays = self.strangers.is_some_and(|times| random.once_in(times));
        if boxes == MOST || !strays {
            return;
        }
        for _ in 0..random.within(1, 3) {
            let stranger = BoxSet::single(random.within(boxes, MOST - 1));
            let set = &mut heard[random.below(boxes)];
            *set = set.with(stranger);
        }
    }
}

/// How a run is called.
#[derive(Clone, Copy, Debug, PartialEq, Eq)]
pub enum Way {
    Fast,
    Observing,
    Latest,
    /// Latest as the standard licence, whatever the rule.
    Licence,
}

impl Way {
    /// The procedure in numbers; Latest has several.
    fn number(self, random: &mut Random) -> u32 {
        match self {
            Way::Fast => 0,
            Way::Observing => 1,
            Way::Latest => random.pick(&[2, 2, 2, 4, u32::MAX]),
            Way::Licence => 3,
        }
    }
}

/// A run, and what is compared of it.
#[derive(Clone, Debug)]
pub struct RunCase {
    pub way: Way,
    pub procedure: u32,
    pub rule: RuleNumbers,
    pub proposals: Vec<u32>,
    /// How many slips the table has.
    pub table: usize,
    /// How many slips the sheet has.
    pub sheet: usize,
    pub heard: Vec<u32>,
    /// How many heard sets there are to a beat.
    pub each: usize,
    /// The answers are compared after every so many beats, and after the last.
    pub step: usize,
}

/// The rule of the standard licence.
fn licence_rule(boxes: usize) -> RuleNumbers {
    RuleNumbers { boxes, base: 0, quorum: 0, clear: 0, anchored: 1, anchor: 0 }
}

impl RunCase {
    /// How many beats there are heard sets for.
    pub fn beats(&self) -> usize {
        self.heard.len().checked_div(self.each).unwrap_or(0)
    }

    /// The heard sets of a beat.
    pub fn beat(&self, index: usize) -> &[u32] {
        &self.heard[index * self.each..(index + 1) * self.each]
    }

    /// The rule that is worked under: of the standard licence only the boxes are asked for.
    pub fn rule_worked(&self) -> RuleNumbers {
        match self.way {
            Way::Licence => licence_rule(self.rule.boxes),
            _ => self.rule,
        }
    }
}

fn random_length(random: &mut Random, boxes: usize) -> usize {
    random.pick(&[0, 1, 32, 33, 40, 41, 70, boxes.saturating_sub(1), boxes + 1])
}

fn length(random: &mut Random, boxes: usize) -> usize {
    if random.once_in(60) { random_length(random, boxes) } else { boxes }
}

fn small_or_any(random: &mut Random) -> usize {
    let most = random.pick(&[3, 5, 9, 32]);
    random.within(1, most)
}

fn way(random: &mut Random) -> Way {
    random.pick(&[Way::Fast, Way::Observing, Way::Latest])
}

/// A run of up to so many beats over some rule.
pub fn run_case(random: &mut Random, beats: usize, step: usize) -> RunCase {
    let boxes = small_or_any(random);
    let sound = sound_rule(random, boxes);
    let rule = if random.once_in(60) { changed_rule(random, sound) } else { sound };
    let way = way(random);
    case_of(random, way, rule, beats, step)
}

/// A run of the standard licence.
pub fn licence_case(random: &mut Random, beats: usize, step: usize) -> RunCase {
    let boxes = small_or_any(random);
    let far = random.pick(&[0, 33, 40, 1 << 32, usize::MAX]);
    let asked = if random.once_in(60) { far } else { boxes };
    let sound = sound_rule(random, boxes);
    let rule = RuleNumbers { boxes: asked, ..changed_rule(random, sound) };
    case_of(random, Way::Licence, rule, beats, step)
}

fn case_of(random: &mut Random, way: Way, rule: RuleNumbers, beats: usize, step: usize) -> RunCase {
    let boxes = rule.boxes.min(MOST + 1);
    let count = length(random, boxes);
    let mut case = RunCase {
        way,
        procedure: way.number(random),
        rule,
        proposals: proposals(random, count),
        table: length(random, boxes),
        sheet: length(random, boxes),
        heard: Vec::new(),
        each: length(random, boxes),
        step,
    };
    let beats = random.within(1, beats);
    case.heard = match AnyRule::new(&case.rule_worked()) {
        Ok(rule) => {
            let mut hearing = Hearing::new(random, rule, matches!(way, Way::Latest | Way::Licence));
            (0..beats).flat_map(|_| hearing.beat(random)).collect()
        }
        Err(_) => vec![7; beats * boxes],
    };
    if random.once_in(20) {
        case.heard.extend(std::iter::repeat_n(1, random.below(boxes + 1)));
    }
    case
}

/// A run of one box through all its phases, with these sets heard in the beats that come after.
pub fn closed_case(random: &mut Random, way: Way, late: &[u32]) -> RunCase {
    let beats_to_a_phase = match way {
        Way::Fast => 1,
        Way::Observing => 2,
        Way::Latest | Way::Licence => 3,
    };
    RunCase {
        way,
        procedure: way.number(random),
        rule: licence_rule(1),
        proposals: vec![u32::MAX],
        table: 1,
        sheet: 1,
        heard: [&vec![1; 65_536 * beats_to_a_phase], late].concat(),
        each: 1,
        step: 65_536,
    }
}

/// A book, and the rows that are entered in it.
#[derive(Clone, Debug)]
pub struct BookCase {
    pub boxes: usize,
    pub rule: RuleNumbers,
    pub list: Vec<u64>,
    pub votes: Vec<u64>,
    pub each_votes: usize,
    pub decisions: Vec<u64>,
    pub each_decisions: usize,
    pub step: usize,
}

/// A setup or none out of a few; the last two are too large, and so none.
fn entry(random: &mut Random) -> u64 {
    random.pick(&[0, 0, 1, 1, 2, 2, 2, 2, 3, 3, 1 << 32, 1 << 32, (1 << 32) + 2, u64::MAX])
}

/// What the boxes vote in one row after another.
struct Voters {
    votes: Vec<u64>,
    /// A box changes its vote in one of so many rows.
    change: usize,
    /// A box votes for none in one of so many rows.
    silence: usize,
    /// A decision is any at all in one of so many.
    loose: usize,
}

impl Voters {
    fn new(random: &mut Random, boxes: usize) -> Voters {
        let one = entry(random);
        let votes =
            (0..boxes).map(|_| if random.once_in(3) { entry(random) } else { one }).collect();
        Voters {
            votes,
            change: random.pick(&[3, 20, 300, 100_000]),
            silence: random.pick(&[2, 5, 50, 100_000]),
            loose: random.pick(&[5, 100, 1000, 100_000]),
        }
    }

    fn row(&mut self, random: &mut Random) -> Vec<u64> {
        for vote in &mut self.votes {
            if random.once_in(self.change) {
                *vote = entry(random);
            }
        }
        self.votes.iter().map(|&vote| if random.once_in(self.silence) { 0 } else { vote }).collect()
    }

    /// Decisions for what one of the boxes votes for, if it has a quorum, or for any setup.
    fn decisions(&self, random: &mut Random, rule: &AnyRule, row: &[u64]) -> Vec<u64> {
        let one = random.pick(row);
        let voters = (0..row.len().min(MOST)).filter(|&index| row[index] == one).collect();
        let backed = if rule.is_quorum(voters) { one } else { 0 };
        let decision = |_| match random.below(4 * self.loose) {
            0 => entry(random),
            other if other % 2 == 0 => backed,
            _ => 0,
        };
        (0..row.len()).map(decision).collect()
    }
}

/// A book of up to so many rows.
pub fn book_case(random: &mut Random, rows: usize, step: usize) -> BookCase {
    let boxes = small_or_any(random);
    let rule = book_rule(random, boxes);
    let full = MOST_ENTRIES / boxes;
    let rows = if rows > full && random.once_in(3) {
        full + random.below(3)
    } else {
        random.within(1, rows.min(full))
    };
    let entries = match random.below(20) {
        0 | 1 => random.below(3 * boxes),
        2 => MOST_ENTRIES + random.below(3 * boxes),
        _ => rows * boxes + random.below(4),
    };
    let mut case = BookCase {
        boxes: if random.once_in(100) { random.pick(&[0, 33, 1 << 32, usize::MAX]) } else { boxes },
        rule,
        list: (0..entries).map(|_| entry(random)).collect(),
        votes: Vec::new(),
        each_votes: length(random, boxes),
        decisions: Vec::new(),
        each_decisions: length(random, boxes),
        step,
    };
    put_rows(random, &mut case, boxes, rows);
    case
}

fn book_rule(random: &mut Random, boxes: usize) -> RuleNumbers {
    let boxes = if random.once_in(60) { random.within(1, MOST) } else { boxes };
    let sound = sound_rule(random, boxes);
    if random.once_in(80) { changed_rule(random, sound) } else { sound }
}

fn put_rows(random: &mut Random, case: &mut BookCase, boxes: usize, rows: usize) {
    let Ok(rule) = AnyRule::new(&case.rule) else {
        return;
    };
    let mut voters = Voters::new(random, boxes);
    for _ in 0..rows + 2 {
        let row = voters.row(random);
        case.decisions.extend(voters.decisions(random, &rule, &row));
        case.votes.extend(row);
    }
}
