//! Tries the model and the library on the same random cases: compare [SEED]

use std::process::ExitCode;
use std::sync::atomic::{AtomicU64, Ordering};
use std::{env, thread};

use compare::any::AnyRule;
use compare::cases::{self, Way};
use compare::checks::{self, Checked};
use compare::following;
use compare::library::RuleNumbers;
use compare::random::Random;
use compare::tally::Tally;
use compare::texts;

const THREADS: u64 = 2;

macro_rules! example {
    ($name:literal) => {
        (
            include_bytes!(concat!("../../../examples/", $name, ".txt")),
            include_bytes!(concat!("../../../examples/", $name, ".answer.txt")),
        )
    };
}

/// The texts and the answers of the examples.
const EXAMPLES: [(&[u8], &[u8]); 5] = [
    example!("shift"),
    example!("thirds"),
    example!("anchored"),
    example!("off"),
    example!("faulty"),
];

/// Each kind of case, and how many there are of it.
const KINDS: [(Kind, u64); 12] = [
    (Kind::Example, EXAMPLES.len() as u64),
    (Kind::Closed, 16),
    (Kind::Making, 34),
    (Kind::Every, 600),
    (Kind::Sets, 6_000),
    (Kind::LongRun, 1_500),
    (Kind::LongLicence, 300),
    (Kind::LongBook, 1_000),
    (Kind::Text, 500_000),
    (Kind::Book, 100_000),
    (Kind::Licence, 60_000),
    (Kind::Run, 540_000),
];

#[derive(Clone, Copy, Debug)]
enum Kind {
    /// A text of which the answer is stored.
    Example,
    /// A run that goes on after its last phase.
    Closed,
    /// The making of every sizes rule of one number of boxes.
    Making,
    /// All sets of a rule of a few boxes.
    Every,
    /// Some sets of a rule.
    Sets,
    LongRun,
    LongLicence,
    LongBook,
    Book,
    Licence,
    Run,
    Text,
}

/// One case, by its kind and its rank in it.
fn check(seed: u64, kind: Kind, rank: u64, room: &mut [u8], tally: &mut Tally) -> Checked {
    let random = &mut Random::new(seed, ((kind as u64) << 40) + rank);
    match kind {
        Kind::Example => example(rank, room, tally),
        Kind::Closed => closed(random, rank, tally),
        Kind::Making => makings(random, rank as usize, tally),
        Kind::Every => every_set(random, tally),
        Kind::Sets => some_sets(random, tally),
        Kind::LongRun => following::check_run(&cases::run_case(random, 600, 97), tally),
        Kind::LongLicence => following::check_run(&cases::licence_case(random, 600, 97), tally),
        Kind::LongBook => book(random, 2_048, 89, tally),
        Kind::Book => book(random, 12, 1, tally),
        Kind::Licence => following::check_run(&cases::licence_case(random, 12, 1), tally),
        Kind::Run => following::check_run(&cases::run_case(random, 12, 1), tally),
        Kind::Text => text(random, room, tally),
    }
}

fn example(rank: u64, room: &mut [u8], tally: &mut Tally) -> Checked {
    let (text, answer) = EXAMPLES[rank as usize];
    let printed = checks::printed(text);
    checks::check_text(text, &printed, room, tally)?;
    if printed == answer {
        tally.add("examples", "as stored", 1);
        Ok(())
    } else {
        Err(format!("example: another answer is stored for \"{}\"", text.escape_ascii()))
    }
}

/// After the last phase a beat is declined for that, whatever else there is against it.
fn closed(random: &mut Random, rank: u64, tally: &mut Tally) -> Checked {
    let late: [&[u32]; 4] = [&[], &[1], &[2], &[1, 0]];
    let way = [Way::Fast, Way::Observing, Way::Latest, Way::Licence][rank as usize % 4];
    let case = cases::closed_case(random, way, late[rank as usize / 4]);
    let mut own = Tally::default();
    let checked = following::check_run(&case, &mut own);
    tally.join_under("all phases: ", own);
    checked
}

fn makings(random: &mut Random, boxes: usize, tally: &mut Tally) -> Checked {
    for quorum in 0..=boxes + 1 {
        for clear in 0..=boxes + 1 {
            let anchored = random.below(2) as u32;
            let anchor = random.below(boxes + 2);
            let asked = RuleNumbers { boxes, base: 2, quorum, clear, anchored, anchor };
            checks::check_rule(&asked, &[random.word(), u32::MAX, 0], tally)?;
        }
    }
    for base in 0..2 {
        for anchor in 0..=boxes + 1 {
            let asked = RuleNumbers { boxes, base, quorum: 0, clear: 0, anchored: 1, anchor };
            checks::check_rule(&asked, &[random.word(), u32::MAX, 0], tally)?;
        }
    }
    Ok(())
}

fn every_set(random: &mut Random, tally: &mut Tally) -> Checked {
    let boxes = random.within(1, 10);
    let asked = cases::sound_rule(random, boxes);
    let sets: Vec<u32> = (0..2 << boxes).collect();
    checks::check_rule(&asked, &sets, tally)
}

fn some_sets(random: &mut Random, tally: &mut Tally) -> Checked {
    let boxes = random.within(1, 32);
    let sound = cases::sound_rule(random, boxes);
    let asked = if random.once_in(3) { cases::changed_rule(random, sound) } else { sound };
    let sets: Vec<u32> = match AnyRule::new(&asked) {
        Ok(rule) => (0..100).map(|_| set_or_stranger(random, &rule)).collect(),
        Err(_) => vec![random.word()],
    };
    checks::check_rule(&asked, &sets, tally)
}

fn set_or_stranger(random: &mut Random, rule: &AnyRule) -> u32 {
    let set = cases::any_set(random, rule).0;
    if random.once_in(4) { set | 1 << random.below(32) } else { set }
}

fn book(random: &mut Random, rows: usize, step: usize, tally: &mut Tally) -> Checked {
    checks::check_book(&cases::book_case(random, rows, step), tally).map(|_| ())
}

fn text(random: &mut Random, room: &mut [u8], tally: &mut Tally) -> Checked {
    let text = texts::any(random);
    let printed = checks::printed(&text);
    let space = match random.below(20) {
        0 => 0,
        1 => printed.len().saturating_sub(1),
        2 => random.below(printed.len() + 1),
        3 => printed.len(),
        4 => printed.len() + 1,
        _ => room.len(),
    };
    checks::check_text(&text, &printed, &mut room[..space], tally)
}

/// The kind and the rank of the case of this number.
fn case_of(mut number: u64) -> Option<(Kind, u64)> {
    for (kind, count) in KINDS {
        if number < count {
            return Some((kind, number));
        }
        number -= count;
    }
    None
}

/// Tries every case of one thread that comes before the first difference found so far.
fn work(seed: u64, thread: u64, first: &AtomicU64) -> (Tally, Option<(u64, String)>) {
    let mut tally = Tally::default();
    let mut room = vec![0; 1 << 21];
    let mut number = thread;
    while let Some((kind, rank)) = case_of(number) {
        if number > first.load(Ordering::Relaxed) {
            break;
        }
        if let Err(report) = check(seed, kind, rank, &mut room, &mut tally) {
            first.fetch_min(number, Ordering::Relaxed);
            return (tally, Some((number, format!("{kind:?} {rank}: {report}"))));
        }
        number += THREADS;
    }
    (tally, None)
}

/// What has to come about, by the rows' beginnings.
const WANTED: [(&str, &str); 11] = [
    ("sets of", "1 roster, 3 size, 4 no box, quorum, neither, quorum and clear"),
    ("all phases: beats of fast", "taken, 6 closed"),
    ("all phases: beats of observing", "taken, 6 closed"),
    ("all phases: beats of latest", "taken, 6 closed"),
    ("all phases: beats of licence", "taken, 6 closed"),
    ("lines of texts", "phases, 5 length, 7 stranger, 8 wait"),
    ("texts", "taken, 1 roster, 12 long, 13 key, 14 value"),
    ("answers", "empty, not empty"),
    ("rooms for texts", "too small, just enough, more than enough"),
    ("sorts of runs", "table above 40, sheet above 40, 0 sets to a beat, sets left over"),
    (
        "sorts of books",
        "list above 2048, votes above 2048, decisions above 2048, 0 votes to a row, \
         0 decisions to a row, numbers too large",
    ),
];

/// What has to come about of every procedure over every rule.
const WANTED_OF_RUNS: [(&str, &str); 4] = [
    ("openings", "taken, 1 roster, 5 length"),
    ("beats", "taken, 5 length, 7 stranger"),
    ("runs", "all hold, some hold, none holds, one own, several owns"),
    ("promise", "settled, rows in books"),
];

/// What has to come about of the books under every rule.
const WANTED_OF_BOOKS: &str =
    "taken, 1 roster, 2 other roster, 5 length, 9 no row, 10 defection, 11 unbacked";

const RULES: [&str; 6] =
    ["majority", "thirds", "sizes", "anchored majority", "anchored thirds", "anchored sizes"];

/// The rows that have to be there, with the columns wanted of each.
fn wanted() -> Vec<(String, &'static str)> {
    let mut rows: Vec<_> = WANTED.map(|(row, columns)| (row.to_owned(), columns)).into();
    for rule in RULES {
        rows.push((format!("rows of books under {rule}"), WANTED_OF_BOOKS));
        rows.push((format!("beats of observing over {rule}"), "8 wait"));
        rows.push((format!("phases of latest over {rule}"), "dated votes differ"));
        for procedure in ["fast", "observing", "latest"] {
            let run = |(row, columns)| (format!("{row} of {procedure} over {rule}"), columns);
            rows.extend(WANTED_OF_RUNS.map(run));
        }
    }
    rows.extend(WANTED_OF_RUNS.map(|(row, columns)| (format!("{row} of licence"), columns)));
    rows
}

/// What was wanted and did not come about.
fn missing(tally: &Tally) -> Vec<String> {
    let is_missing = |row: &str, column: &str| tally.sum(row, column) == 0;
    wanted()
        .iter()
        .flat_map(|(row, columns)| columns.split(", ").map(move |column| (row, column)))
        .filter(|(row, column)| is_missing(row, column))
        .map(|(row, column)| format!("{row}: {column}"))
        .collect()
}

fn compare(seed: u64) -> Result<Tally, String> {
    let first = &AtomicU64::new(u64::MAX);
    let ends = thread::scope(|scope| {
        let threads: Vec<_> =
            (0..THREADS).map(|thread| scope.spawn(move || work(seed, thread, first))).collect();
        threads.into_iter().map(|thread| thread.join().expect("a thread ends")).collect::<Vec<_>>()
    });
    let mut tally = Tally::default();
    let mut differences = Vec::new();
    for (part, difference) in ends {
        tally.join(part);
        differences.extend(difference);
    }
    match differences.into_iter().min() {
        Some((_, report)) => Err(report),
        None => Ok(tally),
    }
}

fn main() -> ExitCode {
    let Ok(seed) = env::args().nth(1).map_or(Ok(1), |seed| seed.parse()) else {
        eprintln!("usage: compare [SEED]");
        return ExitCode::FAILURE;
    };
    let tally = match compare(seed) {
        Ok(tally) => tally,
        Err(report) => {
            println!("seed={seed}: a difference\n{report}");
            return ExitCode::FAILURE;
        }
    };
    print!("{tally}");
    let missing = missing(&tally);
    if !missing.is_empty() {
        println!("seed={seed}: these did not come about: {}", missing.join("; "));
        return ExitCode::FAILURE;
    }
    println!(
        "seed={seed}: no difference in {} beats, {} rows of books, {} texts and {} sets",
        tally.total("beats of"),
        tally.total("rows of books"),
        tally.total("texts"),
        tally.total("sets of"),
    );
    ExitCode::SUCCESS
}
