//! The model beside the library, beat by beat.

use crate::any::{self, AnyRule};
use crate::cases::{RunCase, Way};
use crate::checks::{Checked, different};
use crate::faults::RunFault;
use crate::flat::{code, code_of, flat, said};
use crate::library::{self, FlatSlip, MOST_SLIPS, RunCall};
use crate::procedures::{Fast, Latest, Observing, Procedure, licence};
use crate::promise::Witness;
use crate::rules::Roster;
use crate::runs::Run;
use crate::sets::BoxSet;
use crate::slips::{Dated, Setup, Slip};
use crate::tally::{Tally, column};

/// A slip that no run makes, to see which are written.
fn marker() -> Slip {
    let setup = Some(Setup(77));
    let dated = Some(Dated::new(7, Setup(78)));
    Slip { own: Setup(76), pick: setup, say: setup, cast: setup, news: None, held: setup, dated }
}

/// So many slips before an opening.
fn blank(count: usize) -> Vec<Slip> {
    vec![Slip::default(); count]
}

/// What a list of so many slips has after a call that tells these.
fn told(slips: &[Slip], count: usize) -> Vec<FlatSlip> {
    let mut told = vec![flat(&marker()); count];
    for (place, slip) in told.iter_mut().zip(slips) {
        *place = flat(slip);
    }
    told
}

pub fn check_run(case: &RunCase, tally: &mut Tally) -> Checked {
    let name = name_of(case);
    count_sorts(case, tally);
    if case.way == Way::Licence {
        return match Roster::new(case.rule.boxes) {
            Ok(roster) => follow(licence(roster), case, &name, tally),
            Err(fault) => check_unmade(case, &name, code(fault), tally),
        };
    }
    match (AnyRule::new(&case.rule), case.way) {
        (Err(fault), _) => check_unmade(case, &name, code(fault), tally),
        (Ok(rule), Way::Fast) => follow(Fast(rule), case, &name, tally),
        (Ok(rule), Way::Observing) => follow(Observing(rule), case, &name, tally),
        (Ok(rule), _) => follow(Latest(rule), case, &name, tally),
    }
}

fn name_of(case: &RunCase) -> String {
    match case.way {
        Way::Licence => "licence".to_owned(),
        way => format!("{way:?} over {}", any::name(&case.rule)).to_lowercase(),
    }
}

fn count_sorts(case: &RunCase, tally: &mut Tally) {
    let sorts = [
        ("table above 40", case.table > MOST_SLIPS),
        ("sheet above 40", case.sheet > MOST_SLIPS),
        ("0 sets to a beat", case.each == 0),
        ("sets left over", case.each > 0 && !case.heard.len().is_multiple_of(case.each)),
    ];
    for (sort, is_so) in sorts {
        tally.add("sorts of runs", sort, u64::from(is_so));
    }
}

/// What is answered of the first beats of a run.
#[derive(Debug, PartialEq)]
struct Answer {
    fault: u64,
    table: Vec<FlatSlip>,
    sheet: Vec<FlatSlip>,
}

fn answer(case: &RunCase, heard: &[u32]) -> Answer {
    let mut table = told(&[], case.table);
    let mut sheet = told(&[], case.sheet);
    let call = RunCall { proposals: &case.proposals, each: case.each, heard };
    let fault = library::run(&case.rule, case.procedure, call, &mut table, &mut sheet);
    Answer { fault, table, sheet }
}

fn answers_differ(what: &str, case: &RunCase, model: &Answer, library: &Answer) -> String {
    different(what, case, &(said(model.fault), model), &(said(library.fault), library))
}

/// Compares where the run is not opened: every slip that is told is one before an opening then.
fn check_unmade(case: &RunCase, name: &str, fault: u64, tally: &mut Tally) -> Checked {
    tally.add(&format!("openings of {name}"), column(fault >> 32), 1);
    let unopened = blank(MOST_SLIPS);
    let (table, sheet) = (told(&unopened, case.table), told(&unopened, case.sheet));
    let model = Answer { fault, table, sheet };
    let library = answer(case, &case.heard);
    if model == library { Ok(()) } else { Err(answers_differ("opening", case, &model, &library)) }
}

fn broken(what: String, case: &RunCase) -> String {
    format!("a promise is broken in the run of the model: {what}\ncase: {case:?}\n")
}

/// The run of the model, and what it last answered.
struct Follower<'a, P> {
    case: &'a RunCase,
    run: Run<P>,
    table: Vec<Slip>,
    sheet: Vec<Slip>,
    last: Result<(), RunFault>,
    witness: Witness,
}

fn follow<P: Procedure>(procedure: P, case: &RunCase, name: &str, tally: &mut Tally) -> Checked {
    let proposals: Vec<Setup> = case.proposals.iter().copied().map(Setup).collect();
    let mut table = blank(case.table.min(MOST_SLIPS));
    let run = match Run::open(procedure, &proposals, &mut table) {
        Ok(run) => run,
        Err(fault) => return check_unmade(case, name, code(fault), tally),
    };
    tally.add(&format!("openings of {name}"), "taken", 1);
    let sheet = blank(case.sheet.min(MOST_SLIPS));
    let witness = Witness::new(proposals);
    let mut follower = Follower { case, run, table, sheet, last: Ok(()), witness };
    follower.compare(0, &[], tally)?;
    follower.work(name, tally)?;
    follower.count(&format!("runs of {name}"), tally);
    follower.witness.end(case.rule_worked(), name, tally).map_err(|what| broken(what, case))
}

impl<P: Procedure> Follower<'_, P> {
    fn work(&mut self, name: &str, tally: &mut Tally) -> Checked {
        let case = self.case;
        let row = format!("beats of {name}");
        let phases = format!("phases of {name}");
        for index in 0..case.beats() {
            let sets: Vec<BoxSet> = case.beat(index).iter().copied().map(BoxSet).collect();
            self.last = self.run.beat(&mut self.table, &mut self.sheet, &sets);
            tally.add(&row, column(code_of(self.last) >> 32), 1);
            let done = index + 1;
            if done == case.beats() {
                self.compare(done, &case.heard, tally)?;
            } else if done % case.step == 0 {
                self.compare(done, &case.heard[..done * case.each], tally)?;
            }
            if self.last.is_ok() {
                self.see(&sets, &phases, tally).map_err(|what| broken(what, case))?;
            }
        }
        if case.beats() == 0 {
            self.compare(0, &case.heard, tally)?;
        }
        Ok(())
    }

    /// Compares after so many beats, of which the model has just worked the last.
    fn compare(&self, beats: usize, heard: &[u32], tally: &mut Tally) -> Checked {
        let case = self.case;
        let library = answer(case, heard);
        let fault = self.fault(beats, library.fault);
        if let Err(RunFault::Wait(_)) = self.last {
            let which = if library.fault == code_of(self.last) { "the first" } else { "another" };
            tally.add("boxes that are named as waiting", which, 1);
        }
        let (table, sheet) = (told(&self.table, case.table), told(&self.sheet, case.sheet));
        let model = Answer { fault, table, sheet };
        if model == library {
            return Ok(());
        }
        let part = RunCase { heard: heard.to_vec(), ..case.clone() };
        Err(answers_differ("run", &part, &model, &library))
    }

    /// What the model answers of the last beat. Of several boxes that must wait any may be named: it
    /// names the one that the library does, if that box must.
    fn fault(&self, beats: usize, library: u64) -> u64 {
        let Err(RunFault::Wait(_)) = self.last else {
            return code_of(self.last);
        };
        let heard = self.case.beat(beats - 1).iter().enumerate();
        heard
            .filter(|&(_, &set)| !self.run.procedure().admits(BoxSet(set)))
            .map(|(index, _)| code(RunFault::Wait(index)))
            .find(|&fault| fault == library)
            .unwrap_or(code_of(self.last))
    }

    /// Sees that the beat just taken, and the phase if it is the last of one, keep the promise.
    fn see(&mut self, sets: &[BoxSet], row: &str, tally: &mut Tally) -> Checked {
        let is_one = sets.iter().all(|&set| set == sets[0]);
        let is_clear = is_one && self.run.procedure().is_clear(sets[0]);
        self.witness.beat(&self.sheet, &self.table, is_clear)?;
        if self.run.due().beat > 0 {
            return Ok(());
        }
        count_phase(&self.table, row, tally);
        self.witness.phase(&self.table)
    }

    /// Counts how the run has ended.
    fn count(&self, row: &str, tally: &mut Tally) {
        let holders = self.table.iter().filter(|slip| slip.held.is_some()).count();
        let what = match holders {
            0 => "none holds",
            some if some < self.table.len() => "some hold",
            _ => "all hold",
        };
        tally.add(row, what, 1);
        let owns = self.table.iter().map(|slip| slip.own);
        let one = self.table.first().is_some_and(|first| owns.clone().all(|own| own == first.own));
        tally.add(row, if one { "one own" } else { "several owns" }, 1);
    }
}

/// How many entries there are, and whether they differ.
fn spread<T: PartialEq>(entries: impl Iterator<Item = Option<T>>) -> (usize, bool) {
    let all: Vec<T> = entries.flatten().collect();
    (all.len(), all.iter().any(|entry| *entry != all[0]))
}

fn count_phase(table: &[Slip], row: &str, tally: &mut Tally) {
    let (casts, is_split) = spread(table.iter().map(|slip| slip.cast));
    let (news, _) = spread(table.iter().map(|slip| slip.news));
    let (_, is_torn) = spread(table.iter().map(|slip| slip.dated.map(|vote| vote.setup)));
    let votes = match casts {
        0 => "no votes",
        _ if is_split => "votes differ",
        some if some < table.len() => "some vote",
        _ => "all vote one",
    };
    let learnt = match news {
        0 => "no news",
        some if some < table.len() => "news at some",
        _ => "news at all",
    };
    tally.add(row, votes, 1);
    tally.add(row, learnt, 1);
    tally.add(row, "dated votes differ", u64::from(is_torn));
}
