//! Measures the library and the model side by side, and prints tables.

use std::hint::black_box;
use std::time::Instant;

use compare::cases::Way;
use compare::flat;
use compare::library::{self, FlatSlip, RuleNumbers, RunCall};
use compare::procedures::{Fast, Observing, Procedure, licence};
use compare::random::Random;
use compare::rules::{Majority, Roster, Sizes};
use compare::runs::Run;
use compare::seat::{self, LONGEST};
use compare::sets::BoxSet;
use compare::slips::{Setup, Slip};
use compare::texts::{self, Asked};

/// How often each of the two is measured, in turn with the other. What is measured at a time takes
/// a few milliseconds, so that on a busy machine most of it goes undisturbed.
const REPEATS: usize = 301;

/// Seconds that each took, the median of the repeats.
struct Times {
    library: f64,
    model: f64,
}

fn seconds(work: impl FnOnce()) -> f64 {
    let start = Instant::now();
    work();
    start.elapsed().as_secs_f64()
}

fn median(mut times: Vec<f64>) -> f64 {
    times.sort_by(f64::total_cmp);
    times[times.len() / 2]
}

/// Measures both in turn, after once without measuring.
fn measured(mut library: impl FnMut(), mut model: impl FnMut()) -> Times {
    library();
    model();
    let (libraries, models) =
        (0..REPEATS).map(|_| (seconds(&mut library), seconds(&mut model))).unzip();
    Times { library: median(libraries), model: median(models) }
}

/// A run that is measured.
struct Course {
    way: Way,
    rule: RuleNumbers,
    proposals: Vec<u32>,
    heard: Vec<u32>,
}

impl Course {
    fn boxes(&self) -> usize {
        self.proposals.len()
    }

    fn beats(&self) -> usize {
        self.heard.len() / self.boxes()
    }
}

fn rule_of(way: Way, boxes: usize) -> RuleNumbers {
    let (base, anchored) = match way {
        Way::Fast => (1, 0),
        Way::Observing => (0, 0),
        Way::Latest | Way::Licence => (0, 1),
    };
    RuleNumbers { boxes, base, quorum: 0, clear: 0, anchored, anchor: 0 }
}

/// The whole roster without up to so many boxes.
fn missing(random: &mut Random, boxes: usize, most: usize) -> u32 {
    (0..random.within(0, most))
        .fold(BoxSet::below(boxes).0, |set, _| set & !(1 << random.below(boxes)))
}

fn beats_of(boxes: usize) -> usize {
    200_000 / (boxes * boxes)
}

/// Boxes that miss up to a quarter of the others in each beat.
fn lossy(way: Way, boxes: usize) -> Course {
    let random = &mut Random::new(1, boxes as u64);
    let proposals = (0..boxes).map(|_| random.word()).collect();
    let most = (boxes / 4).max(1);
    let heard = (0..beats_of(boxes) * boxes).map(|_| missing(random, boxes, most)).collect();
    Course { way, rule: rule_of(way, boxes), proposals, heard }
}

/// Boxes under Fast that hear just too few to come to an agreement, and so keep what each proposed.
fn apart(boxes: usize) -> Course {
    let random = &mut Random::new(2, boxes as u64);
    let proposals = (0..boxes).map(|_| random.word()).collect();
    let size = 2 * boxes / 3;
    let mut order: Vec<usize> = (0..boxes).collect();
    let mut set = || {
        random.shuffle(&mut order);
        order[..size].iter().fold(0, |set, index| set | 1 << index)
    };
    let heard = (0..beats_of(boxes) * boxes / 4).map(|_| set()).collect();
    Course { way: Way::Fast, rule: rule_of(Way::Fast, boxes), proposals, heard }
}

/// Works the beats in the model, and answers how many were taken.
fn work<P: Procedure>(
    procedure: P,
    proposals: &[Setup],
    heard: &[BoxSet],
    table: &mut [Slip],
    sheet: &mut [Slip],
) -> usize {
    let boxes = proposals.len();
    let mut run =
        Run::open(procedure, proposals, table).expect("a proposal and a slip for each box");
    heard.chunks_exact(boxes).filter(|heard| run.beat(table, sheet, heard).is_ok()).count()
}

fn work_any(
    way: Way,
    roster: Roster,
    proposals: &[Setup],
    heard: &[BoxSet],
    table: &mut [Slip],
    sheet: &mut [Slip],
) -> usize {
    match way {
        Way::Fast => work(Fast(Sizes::thirds(roster)), proposals, heard, table, sheet),
        Way::Observing => work(Observing(Majority::new(roster)), proposals, heard, table, sheet),
        Way::Latest | Way::Licence => work(licence(roster), proposals, heard, table, sheet),
    }
}

/// Measures a run, and sees that both come to the same table.
fn run(course: &Course) -> (Times, usize) {
    let boxes = course.boxes();
    let roster = Roster::new(boxes).expect("1 to 32 boxes");
    let proposals: Vec<Setup> = course.proposals.iter().copied().map(Setup).collect();
    let heard: Vec<BoxSet> = course.heard.iter().copied().map(BoxSet).collect();
    let mut table = vec![Slip::default(); boxes];
    let mut sheet = table.clone();
    let mut flat_table = vec![FlatSlip::default(); boxes];
    let mut flat_sheet = flat_table.clone();
    let mut taken = 0;
    let call = RunCall { proposals: &course.proposals, each: boxes, heard: &course.heard };
    let times = measured(
        || {
            let fault = library::run(
                &course.rule,
                course.way as u32,
                black_box(call),
                &mut flat_table,
                &mut flat_sheet,
            );
            black_box((fault, &flat_table));
        },
        || {
            taken = work_any(
                course.way,
                roster,
                black_box(&proposals),
                black_box(&heard),
                &mut table,
                &mut sheet,
            );
            black_box((taken, &table));
        },
    );
    assert!(table.iter().map(flat::flat).eq(flat_table), "both come to the same table");
    (times, taken)
}

/// Prints the line of a run, and answers how long each took for a beat.
fn run_line(name: &str, course: &Course) -> Times {
    let (times, taken) = run(course);
    let beats = course.beats() as f64;
    println!(
        "| {name} | {} | {:.0}% | {:.0} | {:.0} | {:.2} |",
        course.boxes(),
        100.0 * taken as f64 / beats,
        beats / times.library,
        beats / times.model,
        times.library / times.model,
    );
    Times { library: times.library / beats, model: times.model / beats }
}

fn runs(name: &str, course: impl Fn(usize) -> Course) -> String {
    let [_, middle, large] = [3, 8, 32].map(|boxes| run_line(name, &course(boxes)));
    format!(
        "| {name} | {:.1} | {:.1} |",
        large.library / middle.library,
        large.model / middle.model
    )
}

fn run_tables() {
    println!(
        "| Beats of | N | taken | library, beats a second | model, beats a second | library's time / model's |"
    );
    println!("|---|---|---|---|---|---|");
    let growths = [
        runs("Fast over thirds", |boxes| lossy(Way::Fast, boxes)),
        runs("Observing over majority", |boxes| lossy(Way::Observing, boxes)),
        runs("Latest over anchored", |boxes| lossy(Way::Latest, boxes)),
        runs("Fast, nobody agrees", apart),
    ];
    println!();
    println!("How many times as long a beat of 32 boxes takes as one of 8; (32/8)^2 is 16:");
    println!();
    println!("| Beats of | library | model |");
    println!("|---|---|---|");
    growths.iter().for_each(|line| println!("{line}"));
}

fn text_line(name: &str, asked: Asked) {
    let text = texts::whole(&mut Random::new(3, asked.boxes as u64), asked);
    assert_eq!(text.len(), LONGEST);
    let mut room = vec![0; 1 << 21];
    let mut answer = (false, 0);
    let mut printed = Vec::with_capacity(1 << 21);
    let times = measured(
        || {
            answer = library::seat(black_box(&text), &mut room);
            black_box(&room);
        },
        || {
            printed.clear();
            seat::print(black_box(&text), &mut printed);
            black_box(&printed);
        },
    );
    let (fits, written) = answer;
    assert!(fits && room[..written] == printed[..], "both print the same");
    let megabytes = text.len() as f64 / 1e6;
    println!(
        "| {name} | {} | {written} | {:.0} | {:.0} | {:.1} | {:.1} | {:.2} |",
        asked.boxes,
        1.0 / times.library,
        1.0 / times.model,
        megabytes / times.library,
        megabytes / times.model,
        times.library / times.model,
    );
}

fn text_table() {
    println!(
        "| Texts of 32768 bytes | N | bytes printed | library, texts a second | model, texts a second \
         | library, MB/s | model, MB/s | library's time / model's |"
    );
    println!("|---|---|---|---|---|---|---|---|");
    for (procedure, rule, name) in [
        (0, 1, "Fast over thirds"),
        (1, 0, "Observing over majority"),
        (2, 2, "Latest over anchored"),
    ] {
        for boxes in [3, 32] {
            text_line(name, Asked { boxes, rule, procedure });
        }
    }
}

fn main() {
    run_tables();
    println!();
    text_table();
}
