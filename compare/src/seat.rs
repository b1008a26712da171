//! What the office program prints for the text of a shift.

use crate::faults::{Fault, RunFault, TextFault, TextReason};
use crate::procedures::{Fast, Latest, Observing, Procedure};
use crate::rules::{Anchored, Majority, Present, Roster, Rule, Sizes};
use crate::runs::Run;
use crate::sets::{BoxSet, MOST};
use crate::slips::{Setup, Slip};

/// The most bytes that a text has.
pub const LONGEST: usize = 32_768;

/// The lines of a text that are still to be read.
struct Lines<'a> {
    rest: &'a [u8],
    line: usize,
}

impl<'a> Lines<'a> {
    fn new(text: &'a [u8]) -> Result<Lines<'a>, TextFault> {
        if text.len() > LONGEST {
            return Err(TextFault { reason: TextReason::Long, line: 1, column: 1 });
        }
        Ok(Lines { rest: text, line: 1 })
    }

    fn is_done(&self) -> bool {
        self.rest.is_empty()
    }

    /// Reads the next line, which must have this key and a value of this form.
    fn due<T>(
        &mut self,
        key: &str,
        form: impl Fn(&[u8]) -> Result<T, TextReason>,
    ) -> Result<T, TextFault> {
        let line = self.line;
        let (value, rest) =
            split(self.rest, key).ok_or(TextFault { reason: TextReason::Key, line, column: 1 })?;
        let read =
            form(value).map_err(|reason| TextFault { reason, line, column: key.len() + 2 })?;
        self.rest = rest;
        self.line += 1;
        Ok(read)
    }
}

/// The value of the first line, which has this key, and what comes after that line.
fn split<'a>(text: &'a [u8], key: &str) -> Option<(&'a [u8], &'a [u8])> {
    let end = text.iter().position(|&byte| byte == b'\n')?;
    let value = text[..end].strip_prefix(key.as_bytes())?.strip_prefix(b"=")?;
    Some((value, &text[end + 1..]))
}

fn number(value: &[u8]) -> Result<u32, TextReason> {
    match value {
        [] | [b'0', _, ..] => Err(TextReason::Value),
        digits => digits.iter().try_fold(0, with_digit).ok_or(TextReason::Value),
    }
}

fn with_digit(number: u32, byte: &u8) -> Option<u32> {
    let digit = byte.is_ascii_digit().then(|| u32::from(byte - b'0'))?;
    number.checked_mul(10)?.checked_add(digit)
}

fn roster(value: &[u8]) -> Result<Roster, TextReason> {
    Ok(Roster::new(number(value)? as usize)?)
}

fn setup(value: &[u8]) -> Result<Setup, TextReason> {
    number(value).map(Setup)
}

/// The heard sets of a beat line.
struct Heard {
    sets: [BoxSet; MOST],
    count: usize,
}

fn heard(value: &[u8]) -> Result<Heard, TextReason> {
    let mut heard = Heard { sets: [BoxSet::NONE; MOST], count: 0 };
    for part in value.split(|&byte| byte == b',') {
        let set = heard.sets.get_mut(heard.count).ok_or(TextReason::Value)?;
        *set = BoxSet(number(part)?);
        heard.count += 1;
    }
    Ok(heard)
}

#[derive(Clone, Copy)]
enum RuleName {
    Majority,
    Thirds,
    Anchored,
}

fn rule_name(value: &[u8]) -> Result<RuleName, TextReason> {
    match value {
        b"majority" => Ok(RuleName::Majority),
        b"thirds" => Ok(RuleName::Thirds),
        b"anchored" => Ok(RuleName::Anchored),
        _ => Err(TextReason::Value),
    }
}

#[derive(Clone, Copy)]
enum ProcedureName {
    Fast,
    Observing,
    Latest,
}

fn procedure_name(value: &[u8]) -> Result<ProcedureName, TextReason> {
    match value {
        b"fast" => Ok(ProcedureName::Fast),
        b"observing" => Ok(ProcedureName::Observing),
        b"latest" => Ok(ProcedureName::Latest),
        _ => Err(TextReason::Value),
    }
}

/// Puts what is printed for the text at the end of `out`.
pub fn print(text: &[u8], out: &mut Vec<u8>) {
    if let Err(fault) = read(text, out) {
        put_fault(out, fault);
    }
}

fn read(text: &[u8], out: &mut Vec<u8>) -> Result<(), TextFault> {
    let mut lines = Lines::new(text)?;
    let roster = lines.due("boxes", roster)?;
    let rule = lines.due("rule", rule_name)?;
    let procedure = lines.due("procedure", procedure_name)?;
    let mut setups = [Setup::default(); MOST];
    let setups = &mut setups[..roster.boxes()];
    for place in &mut *setups {
        *place = lines.due("setup", setup)?;
    }
    let majority = Majority::new(roster);
    match (rule, procedure) {
        (RuleName::Thirds, ProcedureName::Fast) => {
            work(Fast(Sizes::thirds(roster)), setups, lines, out)
        }
        (RuleName::Majority, _) => work_over(procedure, majority, setups, lines, out),
        (RuleName::Thirds, _) => work_over(procedure, Sizes::thirds(roster), setups, lines, out),
        (RuleName::Anchored, _) => {
            work_over(procedure, Anchored::on_first(majority), setups, lines, out)
        }
    }
}

fn work_over(
    procedure: ProcedureName,
    rule: impl Rule,
    setups: &[Setup],
    lines: Lines,
    out: &mut Vec<u8>,
) -> Result<(), TextFault> {
    match procedure {
        ProcedureName::Fast => work(Fast(Present(rule)), setups, lines, out),
        ProcedureName::Observing => work(Observing(rule), setups, lines, out),
        ProcedureName::Latest => work(Latest(rule), setups, lines, out),
    }
}

fn work<P: Procedure>(
    procedure: P,
    setups: &[Setup],
    mut lines: Lines,
    out: &mut Vec<u8>,
) -> Result<(), TextFault> {
    let mut table = [Slip::default(); MOST];
    let mut sheet = [Slip::default(); MOST];
    let table = &mut table[..setups.len()];
    let sheet = &mut sheet[..setups.len()];
    let mut run = Run::open(procedure, setups, table).expect("a proposal and a slip for each box");
    while !lines.is_done() {
        let heard = lines.due("beat", heard)?;
        let phase = run.due().phase;
        match run.beat(table, sheet, &heard.sets[..heard.count]) {
            Ok(()) if run.due().phase > phase => put_phase(out, phase, table),
            Ok(()) => {}
            Err(fault) => put_declined(out, fault),
        }
    }
    Ok(())
}

fn put_phase(out: &mut Vec<u8>, phase: u32, table: &[Slip]) {
    put_line(out, "phase", phase);
    put_row(out, "votes", table.iter().map(|slip| slip.cast));
    put_row(out, "held", table.iter().map(|slip| slip.held));
}

fn put_declined(out: &mut Vec<u8>, fault: RunFault) {
    put_line(out, "declined", Fault::from(fault).number);
}

fn put_fault(out: &mut Vec<u8>, fault: TextFault) {
    let Fault { number, layer, place } = fault.reason.into();
    put_line(out, "fault", number);
    put_key(out, "layer");
    out.extend_from_slice(layer.as_bytes());
    out.push(b'\n');
    put_line(out, "place", place);
    put_line(out, "line", fault.line as u32);
    put_line(out, "column", fault.column as u32);
}

fn put_key(out: &mut Vec<u8>, key: &str) {
    out.extend_from_slice(key.as_bytes());
    out.push(b'=');
}

fn put_line(out: &mut Vec<u8>, key: &str, number: u32) {
    put_key(out, key);
    put_number(out, number);
    out.push(b'\n');
}

fn put_row(out: &mut Vec<u8>, key: &str, row: impl Iterator<Item = Option<Setup>>) {
    put_key(out, key);
    for (index, entry) in row.enumerate() {
        if index > 0 {
            out.push(b',');
        }
        match entry {
            Some(Setup(number)) => put_number(out, number),
            None => out.push(b'-'),
        }
    }
    out.push(b'\n');
}

fn put_number(out: &mut Vec<u8>, mut number: u32) {
    let mut digits = [0; 10];
    let mut start = digits.len();
    loop {
        start -= 1;
        digits[start] = b'0' + (number % 10) as u8;
        number /= 10;
        if number == 0 {
            break;
        }
    }
    out.extend_from_slice(&digits[start..]);
}
