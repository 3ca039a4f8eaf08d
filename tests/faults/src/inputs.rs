//! Random calls: lengths, numbers, texts and stores of all sorts.

use crate::due::{Call, Held, Kind, WORKING};
use crate::guarded::{Lie, PAGE};
use crate::host::{LONGEST_OUT, LONGEST_TEXT};
use crate::texts;
use second::checker::Checker;
use second::config::Place;
use second::fuzz::{damage, walk};
use second::random::Random;
use second::record::Texts;
use second::refusal::Refusal;
use second::steps::Step;
use second::store::form::{set_header, LENGTH};

/// Numbers at the edges.
const EDGES: [usize; 15] = [
    0,
    1,
    14,
    15,
    255,
    256,
    65_534,
    65_535,
    65_536,
    (1 << 31) - 1,
    1 << 31,
    (1 << 32) - 1,
    1 << 32,
    1 << 63,
    usize::MAX,
];

/// A number at an edge, or a small one with its higher half set.
fn edge(random: &mut Random) -> usize {
    match random.below(6) {
        0 => (1 << 32) + random.below(16),
        1 => random.next() as usize,
        _ => *random.pick(&EDGES),
    }
}

/// Lengths of store and working slice; nearly half of them are too short, most of these by far, so that the call is a short one.
fn lengths(random: &mut Random) -> (usize, usize) {
    let long = |random: &mut Random, least: usize| match random.below(8) {
        0 => least + 1,
        1 => least + random.below(PAGE + 1),
        _ => least,
    };
    let short = |random: &mut Random, least: usize| match random.below(32) {
        0 => least - 1,
        1 => random.below(least),
        2..=7 => *random.pick(&[1, 2, 3, 17, 18, 19, 255, 256, 4_095, 4_096, 4_097]),
        8..=11 => 0,
        _ => random.below(1_500),
    };
    match random.below(32) {
        0..=17 => (long(random, LENGTH), long(random, WORKING)),
        18 => (LENGTH - 1, long(random, WORKING)),
        19 => (long(random, LENGTH), WORKING - 1),
        20 => (long(random, LENGTH), short(random, WORKING)),
        _ => (short(random, LENGTH), short(random, WORKING)),
    }
}

pub fn lies(random: &mut Random) -> [Lie; 5] {
    std::array::from_fn(|_| match random.below(8) {
        0..=4 => Lie::AtEnd,
        5 | 6 => Lie::AtBegin,
        _ => Lie::Nowhere,
    })
}

/// Bytes that are no text, of any length up to one past the limit and more.
fn noise(random: &mut Random, limit: usize) -> Vec<u8> {
    let length = match random.below(8) {
        0 => limit,
        1 => limit + 1,
        2 => random.below(LONGEST_TEXT + 1),
        _ => random.below(200),
    };
    let letters = b"(),;:=.?|-> \nXYZabfp017_";
    let any = random.once_in(2);
    let byte = |_| match any {
        true => random.next() as u8,
        false => *random.pick(letters),
    };
    (0..length).map(byte).collect()
}

/// A program and a query.
fn program(random: &mut Random) -> (Vec<u8>, Vec<u8>) {
    let (mut rules, mut query) = texts::texts(random);
    match random.below(16) {
        0 => rules = noise(random, 16_384),
        1 => query = noise(random, 4_096),
        2 => rules.resize(16_384 + random.below(2), b' '),
        3 => query.resize(4_096 + random.below(2), b'\n'),
        4 => rules.clear(),
        5 => query.clear(),
        6 => {
            // a start of more or fewer than 2,048 parts
            rules = b"p := true.".to_vec();
            query = [b"p".to_vec(), b",p".repeat(random.between(1_010, 1_030)), b".".to_vec()].concat();
        }
        _ => {}
    }
    rules.truncate(LONGEST_TEXT);
    query.truncate(LONGEST_TEXT);
    (rules, query)
}

/// A steps text: steps of the run, refused ones, damaged lines, long ones, bytes that are no text.
fn steps(random: &mut Random, held: &mut Held, own: &Texts) -> Vec<u8> {
    let mut text = Vec::new();
    match random.below(10) {
        0 => return noise(random, 16_384),
        1 => text.clone_from(&own.steps),
        2 => text = damage::boundary(random).steps,
        3 => {
            let line = format!("{} {} {}\n", random.below(16), random.below(9), random.below(2) * random.below(5));
            let whole = 16_384 + random.below(2);
            text = line.as_bytes().repeat(whole / line.len());
            // filled up with leading zeros
            text.splice(0..0, vec![b'0'; whole - text.len()]);
        }
        _ => {
            let Some((checker, _)) = &mut held.run else {
                return b"1 2 0\n".to_vec();
            };
            let mut after = checker.clone();
            for _ in 0..random.below(6) {
                let small = after.config.places() <= 80;
                let step = match random.below(8) {
                    0 => None,
                    1..=3 => fitting(random, &mut after),
                    _ if small => walk::allowed_step(random, &mut after),
                    _ => None,
                };
                let step = step.unwrap_or_else(|| walk::any_step(random, &mut after));
                let _ = after.step(step);
                text.extend_from_slice(walk::line(step).as_bytes());
            }
            if random.once_in(8) {
                text.extend(format!("{} {} {}\n", edge(random), edge(random), edge(random)).bytes());
            }
        }
    }
    if random.once_in(8) {
        let mut damaged = Texts {
            steps: text,
            ..Texts::default()
        };
        // Mostly of the other texts; the steps once in a while.
        for _ in 0..3 {
            damage::damage(random, &mut damaged);
        }
        text = damaged.steps;
    }
    text.truncate(LONGEST_TEXT);
    text
}

/// A step of a rule that takes what stands at its place, so that its condition decides.
pub fn fitting(random: &mut Random, checker: &mut Checker) -> Option<Step> {
    let place = Place(random.below(checker.config.places()) as u32);
    let argument = Place(random.below(place.0 as usize + 1) as u32);
    let steps = (1..=14).map(|rule| Step {
        rule,
        place,
        argument: if rule == 12 { argument } else { Place(0) },
    });
    let fits: Vec<Step> = steps.filter(|&step| checker.accepts(step) != Err(Refusal::OtherKind)).collect();
    (!fits.is_empty()).then(|| *random.pick(&fits))
}

/// Rule, place and argument.
fn step(random: &mut Random, held: &mut Held) -> [usize; 3] {
    let mut numbers = [random.below(16), random.below(9), 0];
    if let Some((checker, _)) = &mut held.run {
        let small = checker.config.places() <= 80;
        let step = match random.below(12) {
            0 if small => walk::limited_step(random, checker),
            1 | 2 => None,
            3..=6 => fitting(random, checker),
            _ if small => walk::allowed_step(random, checker),
            _ => None,
        };
        let step = step.unwrap_or_else(|| walk::any_step(random, checker));
        numbers = [step.rule, step.place.0, step.argument.0].map(|number| number as usize);
    }
    if random.once_in(3) {
        numbers[random.below(3)] = edge(random);
    }
    if random.once_in(16) {
        // The same number but for its higher half.
        numbers[random.below(3)] += 1 << 32;
    }
    numbers
}

/// An answer's number, and the length of the slice for its text.
fn answer(random: &mut Random, held: &mut Held) -> (usize, usize) {
    let mut number = random.between(0, 2);
    let mut length = random.below(40);
    if let Some((checker, _)) = &mut held.run {
        let boxes = checker.answer_boxes();
        if !boxes.is_empty() {
            let index = random.below(boxes.len());
            number = index + 1;
            let exact = checker.answer_text(boxes[index], LONGEST_OUT).map_or(LONGEST_OUT, |text| text.len());
            length = match random.below(5) {
                0 | 1 => exact,
                2 => exact.saturating_sub(1),
                3 => (exact + 1).min(LONGEST_OUT),
                _ => random.below(exact + 1),
            };
        }
        if random.once_in(6) {
            number = boxes.len() + random.below(2);
        }
    }
    if random.once_in(6) {
        number = edge(random);
    }
    if random.once_in(16) {
        number += 1 << 32;
    }
    match random.below(8) {
        0 => length = 0,
        1 => length = 4_096,
        2 => length = random.below(LONGEST_OUT + 1),
        _ => {}
    }
    (number, length)
}

/// A call of some kind; `own` are the texts of the run.
pub fn call(random: &mut Random, held: &mut Held, own: &Texts, weights: &[usize; 6]) -> Call {
    let kind = crate::due::KINDS[random.weighted(weights)];
    let (store, work) = lengths(random);
    let mut call = Call {
        kind,
        text: vec![],
        query: vec![],
        numbers: [0; 3],
        store,
        work,
        out: 0,
    };
    match kind {
        Kind::Start => {
            (call.text, call.query) = match random.below(3) {
                0 => (own.rules.clone(), own.query.clone()),
                _ => program(random),
            };
            call.text.truncate(LONGEST_TEXT);
            call.query.truncate(LONGEST_TEXT);
        }
        Kind::Run => call.text = steps(random, held, own),
        Kind::Step => call.numbers = step(random, held),
        Kind::Answer => (call.numbers[0], call.out) = answer(random, held),
        Kind::State | Kind::Count => {}
    }
    call
}

/// A call that begins the run of texts, and one that takes its steps, with slices of the documented lengths.
pub fn begin(own: &Texts) -> [Call; 2] {
    let call = |kind, text: &[u8], query: &[u8]| Call {
        kind,
        text: text.to_vec(),
        query: query.to_vec(),
        numbers: [0; 3],
        store: LENGTH,
        work: WORKING,
        out: 0,
    };
    [call(Kind::Start, &own.rules, &own.query), call(Kind::Run, &own.steps, b"")]
}

/// Texts of a run with answers: the record of document 01, or equations that have a solution, whose text may be long.
pub fn answered(random: &mut Random) -> Texts {
    if random.once_in(3) {
        return Texts {
            rules: b"amend(K) := (K = kept ? true ; K = new ? true).".to_vec(),
            query: b"amend(K).".to_vec(),
            steps: b"2 2 0\n5 2 0\n1 5 0\n1 7 0\n12 2 1\n14 1 0\n6 2 0\n6 4 0\n1 2 0\n1 3 0\n".to_vec(),
        };
    }
    let count = random.between(1, 15);
    let (mut query, mut steps) = (String::new(), String::new());
    for number in 0..count {
        // Each variable is built of later ones, so that there is a solution.
        let arity = random.weighted(&[1, 2, 4, 1]);
        let near = random.once_in(2);
        let mut list = Vec::new();
        for _ in 0..arity {
            let later = if near { number + 1 } else { random.between(number + 1, count) };
            list.push(format!("V{later}"));
        }
        let longest = if random.once_in(4) { 32 } else { 2 };
        let name = "n".repeat(random.between(1, longest));
        let list = if arity == 0 { String::new() } else { format!("({})", list.join(",")) };
        query += &format!("V{number} = {name}{list}");
        query += if number + 1 < count { ", " } else { "." };
        steps += if number + 1 < count { "3 2 0\n1 2 0\n" } else { "1 2 0\n" };
    }
    Texts {
        rules: vec![],
        query: query.into_bytes(),
        steps: steps.into_bytes(),
    }
}

/// A store that no run leaves: zero, any bytes, or a header and then any bytes.
pub fn no_store(random: &mut Random) -> Vec<u8> {
    let mut bytes = vec![0; LENGTH];
    let kind = random.below(4);
    if kind > 0 {
        for piece in bytes.chunks_mut(8) {
            let eight = random.next().to_le_bytes();
            piece.copy_from_slice(&eight[..piece.len()]);
        }
    }
    if kind > 1 {
        let rooms = [1, 20_489, 40_960, 16, 28_672, 65_535];
        for (index, room) in rooms.into_iter().enumerate() {
            set_header(&mut bytes, index, if index == 0 { 2 } else { random.below(room + 2) as u32 });
        }
    }
    if kind > 2 {
        // Words of the classes and values that there are.
        for word in bytes[18..].chunks_exact_mut(3) {
            let small = [random.below(6) as u8, random.below(14) as u8, 0];
            word.copy_from_slice(&small);
        }
    }
    bytes
}
