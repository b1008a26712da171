//! Random texts of shifts, sound and damaged.

use crate::any::AnyRule;
use crate::cases::{Hearing, proposals};
use crate::library::RuleNumbers;
use crate::random::Random;
use crate::seat::LONGEST;

const RULES: [&str; 3] = ["majority", "thirds", "anchored"];
const PROCEDURES: [&str; 3] = ["fast", "observing", "latest"];

/// The lines of a text, without their ends.
pub type Lines = Vec<Vec<u8>>;

pub fn joined(lines: &Lines) -> Vec<u8> {
    lines.iter().flat_map(|line| line.iter().copied().chain([b'\n'])).collect()
}

/// The rule that a text asks for by its name's place among the names.
pub fn named(boxes: usize, name: usize) -> AnyRule {
    let asked = RuleNumbers {
        boxes,
        base: u32::from(name == 1),
        quorum: 0,
        clear: 0,
        anchored: u32::from(name == 2),
        anchor: 0,
    };
    AnyRule::new(&asked).expect("a roster of 1 to 32 boxes")
}

/// What a text asks for.
#[derive(Clone, Copy, Debug)]
pub struct Asked {
    pub boxes: usize,
    pub rule: usize,
    pub procedure: usize,
}

impl Asked {
    fn any(random: &mut Random) -> Asked {
        let most = random.pick(&[3, 5, 9, 32]);
        Asked { boxes: random.within(1, most), rule: random.below(3), procedure: random.below(3) }
    }

    /// The lines before the first beat.
    pub fn head(&self, setups: &[u32]) -> Lines {
        let mut lines = vec![
            format!("boxes={}", self.boxes),
            format!("rule={}", RULES[self.rule]),
            format!("procedure={}", PROCEDURES[self.procedure]),
        ];
        lines.extend(setups.iter().map(|setup| format!("setup={setup}")));
        lines.into_iter().map(String::into_bytes).collect()
    }
}

pub fn beat_line(heard: &[u32]) -> Vec<u8> {
    let sets: Vec<String> = heard.iter().map(u32::to_string).collect();
    format!("beat={}", sets.join(",")).into_bytes()
}

/// A sound text of up to so many beats.
pub fn sound(random: &mut Random, beats: usize) -> Lines {
    let asked = Asked::any(random);
    let setups = proposals(random, asked.boxes);
    let mut lines = asked.head(&setups);
    let mut hearing = Hearing::new(random, named(asked.boxes, asked.rule), asked.procedure == 2);
    for _ in 0..random.within(0, beats) {
        let mut heard = hearing.beat(random);
        miscount(random, &mut heard);
        lines.push(beat_line(&heard));
    }
    lines
}

/// Now and then a beat has too few or too many sets, and at times more than its form allows.
fn miscount(random: &mut Random, heard: &mut Vec<u32>) {
    if random.once_in(40) {
        let count = random.pick(&[1, 2, 3, 31, 32, 33, 34]);
        heard.resize(count, 1);
    }
}

/// A beat line of so many bytes with its end, of which there are 7 to 77.
fn padding(bytes: usize) -> Vec<u8> {
    let mut line = b"beat=".to_vec();
    while bytes - 1 - line.len() > 10 {
        line.extend_from_slice(b"1,");
    }
    line.resize(bytes - 1, b'1');
    line
}

/// A sound text of exactly so many bytes, which are enough for its head.
pub fn exact(random: &mut Random, bytes: usize) -> Vec<u8> {
    let mut text = joined(&sound(random, 3));
    let asked = Asked::any(random);
    if text.len() + 7 > bytes {
        let setups = proposals(random, asked.boxes);
        text = joined(&asked.head(&setups));
    }
    let beats = text
        .split(|&byte| byte == b'\n')
        .filter(|line| line.starts_with(b"beat="))
        .map(<[u8]>::to_vec);
    let beats: Lines = beats.chain([b"beat=7,7,7".to_vec()]).collect();
    loop {
        let rest = bytes - text.len();
        let next = random.below(beats.len());
        if rest <= 77 {
            text.extend(joined(&vec![padding(rest)]));
            return text;
        }
        let line = if rest < beats[next].len() + 8 { padding(60) } else { beats[next].clone() };
        text.extend(joined(&vec![line]));
    }
}

/// A number of so many digits, 1 to 9.
fn of_digits(random: &mut Random, digits: usize) -> u32 {
    let least = 10_u32.pow(digits as u32 - 1);
    least + random.below(9 * least as usize) as u32
}

/// A sound text of exactly `LONGEST` bytes, of beats in which the boxes hear quorums.
pub fn whole(random: &mut Random, asked: Asked) -> Vec<u8> {
    let mut hearing = Hearing::quorums(named(asked.boxes, asked.rule));
    let mut bytes = joined(&asked.head(&vec![0; asked.boxes])).len();
    let mut beats = Lines::new();
    loop {
        let line = beat_line(&hearing.beat(random));
        if bytes + line.len() >= LONGEST {
            break;
        }
        bytes += line.len() + 1;
        beats.push(line);
    }
    while LONGEST - bytes > 8 * asked.boxes {
        let line = padding(50);
        bytes += line.len() + 1;
        beats.push(line);
    }
    let more = LONGEST - bytes;
    let digits = |index| 1 + more / asked.boxes + usize::from(index < more % asked.boxes);
    let setups: Vec<u32> = (0..asked.boxes).map(|index| of_digits(random, digits(index))).collect();
    let lines = asked.head(&setups).into_iter().chain(beats).collect();
    joined(&lines)
}

/// Bytes that stand in texts, or nearly.
const BYTES: &[u8] = b"0123456789=,,\n\nabemorstuxyz +-\r\tA\0\xff";

fn at(random: &mut Random, text: &[u8]) -> usize {
    random.below(text.len() + 1)
}

type Damage = fn(&mut Random, &mut Vec<u8>);

fn flip(random: &mut Random, text: &mut [u8]) {
    let place = at(random, text);
    if let Some(byte) = text.get_mut(place) {
        *byte ^= 1 << random.below(8);
    }
}

fn put(random: &mut Random, text: &mut [u8]) {
    let place = at(random, text);
    if let Some(byte) = text.get_mut(place) {
        *byte = random.pick(BYTES);
    }
}

fn insert(random: &mut Random, text: &mut Vec<u8>) {
    let place = at(random, text);
    text.insert(place, random.pick(BYTES));
}

fn remove(random: &mut Random, text: &mut Vec<u8>) {
    let place = at(random, text);
    if place < text.len() {
        text.remove(place);
    }
}

fn exchange(random: &mut Random, text: &mut [u8]) {
    let place = at(random, text);
    if place + 1 < text.len() {
        text.swap(place, place + 1);
    }
}

fn cut(random: &mut Random, text: &mut Vec<u8>) {
    let place = at(random, text);
    text.truncate(place);
}

fn lose_end(_: &mut Random, text: &mut Vec<u8>) {
    text.pop();
}

fn extend(random: &mut Random, text: &mut Vec<u8>) {
    let ends: [&[u8]; 8] = [
        b"\n",
        b"\n\n",
        b"beat=",
        b"beat=1",
        b"=\n",
        b"setup=1\n",
        b"beat=\n",
        b"beat=1\nbeat=1\n",
    ];
    text.extend_from_slice(random.pick(&ends));
}

/// A number is made longer at its front or its end.
fn lengthen(random: &mut Random, text: &mut Vec<u8>) {
    let digits: Vec<usize> =
        (0..text.len()).filter(|&place| text[place].is_ascii_digit()).collect();
    if digits.is_empty() {
        return;
    }
    let place = random.pick(&digits) + random.below(2);
    let more: [&[u8]; 7] =
        [b"0", b"00", b"1", b"9", b"4294967295", b"000000000000", b"99999999999999999999"];
    text.splice(place..place, random.pick(&more).iter().copied());
}

/// A whole number becomes another one, often just on either side of the greatest.
fn renumber(random: &mut Random, text: &mut Vec<u8>) {
    let is_start = |&place: &usize| {
        text[place].is_ascii_digit() && (place == 0 || !text[place - 1].is_ascii_digit())
    };
    let starts: Vec<usize> = (0..text.len()).filter(is_start).collect();
    if starts.is_empty() {
        return;
    }
    let start = random.pick(&starts);
    let length = text[start..].iter().take_while(|byte| byte.is_ascii_digit()).count();
    let numbers = [
        "",
        "0",
        "1",
        "00",
        "01",
        "31",
        "32",
        "33",
        "4294967294",
        "4294967295",
        "4294967296",
        "4294967305",
        "5000000000",
        "9999999999",
        "04294967295",
        "42949672950",
        "18446744073709551615",
        "18446744073709551616",
        "18446744073709551617",
        "-1",
        "+1",
        "1 ",
        " 1",
        "0x1",
        "1,1",
    ];
    text.splice(start..start + length, random.pick(&numbers).bytes());
}

fn with_lines(text: &mut Vec<u8>, change: impl FnOnce(&mut Lines)) {
    let mut lines: Lines = text.split(|&byte| byte == b'\n').map(<[u8]>::to_vec).collect();
    change(&mut lines);
    *text = lines.join(&b'\n');
}

fn drop_line(random: &mut Random, text: &mut Vec<u8>) {
    with_lines(text, |lines| {
        lines.remove(random.below(lines.len()));
    });
}

fn double_line(random: &mut Random, text: &mut Vec<u8>) {
    with_lines(text, |lines| {
        let line = random.below(lines.len());
        lines.insert(line, lines[line].clone());
    });
}

fn swap_lines(random: &mut Random, text: &mut Vec<u8>) {
    with_lines(text, |lines| {
        let line = random.below(lines.len());
        let other = random.below(lines.len());
        lines.swap(line, other);
    });
}

/// A line becomes another one of some other text.
fn exchange_line(random: &mut Random, text: &mut Vec<u8>) {
    let others = sound(random, 2);
    with_lines(text, |lines| {
        let line = random.below(lines.len());
        lines[line] = others[random.below(others.len())].clone();
    });
}

/// A line becomes one that is wrong in a way of its own.
fn odd_line(random: &mut Random, text: &mut Vec<u8>) {
    let odd = [
        "",
        "=",
        "==",
        "boxes",
        "boxes=",
        "boxes=0",
        "boxes=33",
        "boxes=4294967296",
        "boxes==3",
        "boxes=3=",
        "boxes = 3",
        " boxes=3",
        "box=3",
        "boxess=3",
        "Boxes=3",
        "rule=",
        "rule=Majority",
        "rule=majorit",
        "rule=majority ",
        "rule=majorityy",
        "rule=sizes",
        "rules=thirds",
        "procedure=",
        "procedure=slow",
        "procedure=fast,fast",
        "procedure=latestt",
        "procedur=fast",
        "setup=",
        "setup=00",
        "setup=1,2",
        "setups=1",
        "setup=4294967296",
        "beat=",
        "beat=,",
        "beat=1,",
        "beat=,1",
        "beat=1,,1",
        "beat=1=1",
        "beats=1",
        "bea=1",
        "beat=1,2,3,4,5,6,7,8,9,0,1,2,3,4,5,6,7,8,9,0,1,2,3,4,5,6,7,8,9,0,1,2",
        "beat=1,2,3,4,5,6,7,8,9,0,1,2,3,4,5,6,7,8,9,0,1,2,3,4,5,6,7,8,9,0,1,2,3",
        "beat=4294967295",
        "beat=7,7,7\r",
        "#beat=1",
        "fault=13",
    ];
    with_lines(text, |lines| {
        let line = random.below(lines.len());
        lines[line] = random.pick(&odd).as_bytes().to_vec();
    });
}

/// The sets of a beat become more or fewer.
fn recount(random: &mut Random, text: &mut Vec<u8>) {
    with_lines(text, |lines| {
        let line = random.below(lines.len());
        let line = &mut lines[line];
        match line.iter().rposition(|&byte| byte == b',') {
            Some(place) if random.once_in(2) => line.truncate(place),
            _ => line.extend_from_slice(&b",1,2,3".repeat(random.within(1, 12))),
        }
    });
}

/// A key loses, doubles or changes a letter.
fn misspell(random: &mut Random, text: &mut Vec<u8>) {
    with_lines(text, |lines| {
        let line = random.below(lines.len());
        let line = &mut lines[line];
        let key = line.iter().position(|&byte| byte == b'=').unwrap_or(0);
        if key == 0 {
            return;
        }
        let place = random.below(key);
        match random.below(3) {
            0 => drop(line.remove(place)),
            1 => line.insert(place, line[place]),
            _ => line[place] = random.pick(b"abemorstuxyzABEMOR_ "),
        }
    });
}

const DAMAGES: [Damage; 17] = [
    |random, text| flip(random, text),
    |random, text| put(random, text),
    insert,
    remove,
    |random, text| exchange(random, text),
    cut,
    lose_end,
    extend,
    lengthen,
    renumber,
    drop_line,
    double_line,
    swap_lines,
    exchange_line,
    odd_line,
    recount,
    misspell,
];

fn damage(random: &mut Random, text: &mut Vec<u8>) {
    for _ in 0..random.pick(&[1, 1, 1, 2, 3]) {
        random.pick(&DAMAGES)(random, text);
    }
}

/// A text of just about the most bytes, or of many more.
fn long(random: &mut Random) -> Vec<u8> {
    if random.once_in(5) {
        let asked = Asked::any(random);
        return whole(random, asked);
    }
    let off = random.pick(&[0, 1, 2, 3, 100]);
    let bytes = match random.below(8) {
        0..=3 => LONGEST - off,
        4..=6 => LONGEST + off,
        _ => LONGEST * 3 + off,
    };
    let mut text = exact(random, bytes);
    if random.once_in(3) {
        damage(random, &mut text);
    }
    text
}

fn noise(random: &mut Random) -> Vec<u8> {
    let length = random.below(60);
    if random.once_in(2) {
        (0..length).map(|_| random.bits() as u8).collect()
    } else {
        (0..length).map(|_| random.pick(BYTES)).collect()
    }
}

/// A sound text, a damaged one, a very long one, or no text of a shift at all.
pub fn any(random: &mut Random) -> Vec<u8> {
    match random.below(100) {
        0 => long(random),
        1 => noise(random),
        2..=39 => joined(&sound(random, 12)),
        _ => {
            let mut text = joined(&sound(random, 4));
            damage(random, &mut text);
            text
        }
    }
}
