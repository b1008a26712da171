//! The model beside the library, on a rule, a book or a text.
//! An `Err` is a difference, with the whole case.

use std::cmp::Ordering;
use std::fmt::{Debug, Write};

use crate::any::{self, AnyRule};
use crate::books::{Book, Entry};
use crate::cases::BookCase;
use crate::flat::{code, code_of, entries, flat_setup, said};
use crate::library::{self, MOST_ENTRIES, Rows, RuleNumbers};
use crate::rules::{ClearView, Majority, Roster, Rule};
use crate::seat;
use crate::sets::BoxSet;
use crate::tally::{Tally, column};

pub type Checked = Result<(), String>;

pub fn different(
    what: &str,
    case: &impl Debug,
    model: &impl Debug,
    library: &impl Debug,
) -> String {
    format!("{what}\ncase: {case:?}\nmodel: {model:?}\nlibrary: {library:?}\n")
}

/// Compares what a rule's making answers, or what it answers of some sets.
pub fn check_rule(asked: &RuleNumbers, sets: &[u32], tally: &mut Tally) -> Checked {
    let rule = AnyRule::new(asked);
    for &set in sets {
        let model = match &rule {
            Ok(rule) => {
                u64::from(rule.is_quorum(BoxSet(set))) + 2 * u64::from(rule.is_clear(BoxSet(set)))
            }
            Err(fault) => code(*fault),
        };
        let library = library::rule(asked, set);
        if model != library {
            return Err(different("rule", &(asked, set), &said(model), &said(library)));
        }
        let what = match model {
            0 => "neither",
            1 => "quorum",
            2 => "clear only",
            3 => "quorum and clear",
            fault => column(fault >> 32),
        };
        tally.add(&format!("sets of {}", any::name(asked)), what, 1);
    }
    Ok(())
}

/// What the library answers, and the list afterwards, where it is given so many votes and decisions.
fn book_answer(case: &BookCase, votes: usize, decisions: usize) -> (u64, Vec<u64>) {
    let mut list = case.list.clone();
    let rows = Rows {
        votes: &case.votes[..votes],
        each_votes: case.each_votes,
        decisions: &case.decisions[..decisions],
        each_decisions: case.each_decisions,
    };
    let fault = library::book(case.boxes, &case.rule, &mut list, rows);
    (fault, list)
}

/// Compares after so many rows, or where all votes and decisions are given.
fn compare_book(case: &BookCase, rows: Option<usize>, fault: u64, list: &[Entry]) -> Checked {
    let (votes, decisions) = match rows {
        Some(rows) => (rows * case.each_votes, rows * case.each_decisions),
        None => (case.votes.len(), case.decisions.len()),
    };
    let library = book_answer(case, votes, decisions);
    let unread = case.list.iter().copied().skip(list.len());
    let list: Vec<u64> = list.iter().copied().map(flat_setup).chain(unread).collect();
    if library.0 == fault && library.1 == list {
        return Ok(());
    }
    let what =
        format!("book after {} rows", rows.map_or("all".to_owned(), |rows| rows.to_string()));
    Err(different(&what, case, &(said(fault), list), &(said(library.0), library.1)))
}

/// The whole rows of a list, of so many entries each; where these are none, there is no row.
fn rows_of(entries: &[Entry], each: usize) -> impl ExactSizeIterator<Item = &[Entry]> {
    let whole = if each == 0 { &[] } else { entries };
    whole.chunks_exact(each.max(1))
}

fn count_book(case: &BookCase, tally: &mut Tally) {
    let lists = [&case.list, &case.votes, &case.decisions];
    let sorts = [
        ("list above 2048", case.list.len() > MOST_ENTRIES),
        ("votes above 2048", case.votes.len() > MOST_ENTRIES),
        ("decisions above 2048", case.decisions.len() > MOST_ENTRIES),
        ("0 votes to a row", case.each_votes == 0),
        ("0 decisions to a row", case.each_decisions == 0),
        ("numbers too large", lists.into_iter().flatten().any(|&number| number > 1 << 32)),
    ];
    for (sort, is_so) in sorts {
        tally.add("sorts of books", sort, u64::from(is_so));
    }
}

/// Compares after the rows of a book, and answers how many of them were taken.
pub fn check_book(case: &BookCase, tally: &mut Tally) -> Result<usize, String> {
    count_book(case, tally);
    let row = format!("rows of books under {}", any::name(&case.rule));
    let mut list = entries(&case.list);
    let made = Roster::new(case.boxes)
        .map(Majority::new)
        .and_then(|own| Ok((own, AnyRule::new(&case.rule)?)));
    let (own, rule) = match made {
        Ok(made) => made,
        Err(fault) => {
            tally.add(&row, column(code(fault) >> 32), 1);
            compare_book(case, None, code(fault), &list)?;
            return Ok(0);
        }
    };
    compare_book(case, Some(0), 0, &list)?;
    let (votes, decisions) = (entries(&case.votes), entries(&case.decisions));
    let rows = rows_of(&votes, case.each_votes).zip(rows_of(&decisions, case.each_decisions));
    let mut book = Book::open(own.roster(), &mut list);
    let mut taken = 0;
    let mut last = 0;
    for (index, (votes, decisions)) in rows.enumerate() {
        if index > 0 && index % case.step == 0 {
            compare_book(case, Some(index), last, book.list())?;
        }
        last = code_of(book.enter(&rule, votes, decisions));
        taken += usize::from(last == 0);
        tally.add(&row, column(last >> 32), 1);
    }
    compare_book(case, None, last, book.list())?;
    Ok(taken)
}

/// What the model prints for a text.
pub fn printed(text: &[u8]) -> Vec<u8> {
    let mut printed = Vec::new();
    seat::print(text, &mut printed);
    printed
}

/// Compares what is printed for a text with what the model prints. Where the room is too small for
/// it, the library has to say so, and what it has written is some first part of it.
pub fn check_text(text: &[u8], printed: &[u8], room: &mut [u8], tally: &mut Tally) -> Checked {
    count_text(text, printed, tally);
    let space = room.len();
    let size = match space.cmp(&printed.len()) {
        Ordering::Less => "too small",
        Ordering::Equal => "just enough",
        Ordering::Greater => "more than enough",
    };
    tally.add("rooms for texts", size, 1);
    let (fits, written) = library::seat(text, room);
    let library = room.get(..written);
    let is_same = match library {
        Some(library) if fits => library == printed,
        Some(library) => space < printed.len() && printed.starts_with(library),
        None => false,
    };
    if is_same {
        return Ok(());
    }
    let mut report = String::new();
    let _ = write!(
        report,
        "text, with room for {space} bytes\ncase: \"{}\"\nmodel ({} bytes): {}\n\
         library (room enough: {fits}, {written} bytes): {}\n",
        text.escape_ascii(),
        printed.len(),
        String::from_utf8_lossy(printed),
        String::from_utf8_lossy(library.unwrap_or_default()),
    );
    Err(report)
}

fn count_text(text: &[u8], printed: &[u8], tally: &mut Tally) {
    let mut outcome = "taken";
    for line in printed.split(|&byte| byte == b'\n') {
        let number =
            |digits: &[u8]| std::str::from_utf8(digits).ok().and_then(|digits| digits.parse().ok());
        if let Some(digits) = line.strip_prefix(b"fault=") {
            outcome = number(digits).map_or("other", column);
        } else if let Some(digits) = line.strip_prefix(b"declined=") {
            tally.add("lines of texts, declined", number(digits).map_or("other", column), 1);
        } else if line.starts_with(b"phase=") {
            tally.add("lines of texts", "phases", 1);
        }
    }
    tally.add("texts", outcome, 1);
    let size = match text.len() {
        0..seat::LONGEST => "shorter",
        seat::LONGEST => "of 32768 bytes",
        _ => "longer",
    };
    tally.add("sizes of texts", size, 1);
    tally.add("answers", if printed.is_empty() { "empty" } else { "not empty" }, 1);
}
