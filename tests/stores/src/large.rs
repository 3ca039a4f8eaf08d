//! The deepest and the largest stores, right and not.

use second::checker::Checker;
use second::limits::{PARTS, PROGRAM_BYTES, QUERY_BYTES};
use second::reader::{read_program, read_query};
use second::store::form::{Raw, CONFIG_WORDS, PROGRAM_WORDS};
use second::store::write;
use second::words::*;

/// A store, with the answer that is due.
pub struct Case {
    pub what: &'static str,
    pub bytes: Vec<u8>,
    pub due: usize,
}

/// The store at the start of a query.
pub fn start(program: &str, query: &str) -> Raw {
    let program = read_program(program.as_bytes()).expect("a program");
    let query = read_query(&program, query.as_bytes()).expect("a query");
    let cells = write::start_table(&query);
    write::raw(&Checker::start(query).expect("within the limits"), &cells)
}

/// `count` times `before`, `middle`, `count` times `after`.
fn nested(before: &[Word], count: usize, middle: &[Word], after: &[Word]) -> Vec<Word> {
    [&before.repeat(count), middle, &after.repeat(count)].concat()
}

/// An and-box that is open, without locals and constraints.
const BOX: [Word; 5] = [AND, LOCALS, END, STORE, END];

/// A solved and-box.
const SOLVED: [Word; 6] = [AND, LOCALS, END, STORE, END, END];

/// Guards in guards, each an and-box in so many or-boxes.
fn guards(levels: usize, ors: usize) -> Vec<Word> {
    let before = [&BOX[..], &[WAIT, GUARDED], &vec![OR; ors]].concat();
    let after = [&vec![END; ors][..], &[TRUE, END, END, END, END]].concat();
    let all = nested(&before, levels, &SOLVED, &after);
    [&[OR][..], &all, &[END]].concat()
}

/// An or-box with an and-box of one member.
fn member(statement: &[Word]) -> Vec<Word> {
    [&[OR][..], &BOX, &[MEMBER], statement, &[END, END, END]].concat()
}

/// `true, true, ..`: so many compositions, each the right part of the one before it.
fn composed(count: usize) -> Vec<Word> {
    nested(&[COMP, TRUE, END], count, &[TRUE, END], &[END])
}

pub fn large() -> Vec<Case> {
    let plain = start("", "true.");
    let with = |due: usize, what: &'static str, config: Vec<Word>| {
        let raw = Raw {
            config,
            ..plain.clone()
        };
        Case {
            what,
            bytes: raw.bytes(),
            due,
        }
    };
    let ors = |count: usize| nested(&[OR], count, &[], &[END]);
    // Besides the guards: the top, and the innermost and-box.
    let levels = |each: usize| (PARTS - 2) / each;
    let mut cases = vec![
        with(0, "or-boxes in or-boxes, 2,048 parts", ors(PARTS)),
        with(9, "or-boxes in or-boxes, 2,049 parts", ors(PARTS + 1)),
        with(
            9,
            "or-boxes in or-boxes, as many as there is room for",
            ors(CONFIG_WORDS / 2),
        ),
        with(9, "or-boxes that are never closed", vec![OR; CONFIG_WORDS]),
        with(
            9,
            "or-boxes, one of them never closed",
            ors(PARTS)[..2 * PARTS - 1].to_vec(),
        ),
        with(9, "ends alone", vec![END; CONFIG_WORDS]),
        with(0, "guards in guards", guards(levels(4), 0)),
        with(
            9,
            "guards in guards, a level more",
            guards(levels(4) + 1, 0),
        ),
        with(
            0,
            "guards in guards, or-boxes between",
            guards(levels(5), 1),
        ),
        with(
            0,
            "guards in guards, three or-boxes between",
            guards(levels(7), 3),
        ),
        with(
            0,
            "and-boxes side by side",
            nested(&[OR], 1, &SOLVED.repeat(PARTS - 1), &[END]),
        ),
        with(
            9,
            "and-boxes side by side, 2,049 parts",
            nested(&[OR], 1, &SOLVED.repeat(PARTS), &[END]),
        ),
        with(
            0,
            "compositions in compositions",
            member(&composed((PARTS - 3) / 2)),
        ),
        with(
            9,
            "compositions in compositions, one more",
            member(&composed((PARTS - 1) / 2)),
        ),
        with(
            9,
            "compositions on the left",
            member(&nested(&[COMP], 500, &[TRUE, END], &[TRUE, END, END])),
        ),
        with(
            9,
            "hidings in hidings",
            member(&nested(&[HIDE, word(NUM, 0)], 500, &[TRUE, END], &[END])),
        ),
        with(
            9,
            "clauses in clauses",
            member(&nested(
                &[ASK_WAIT, CLAUSE, word(NUM, 0), TRUE, END],
                500,
                &[TRUE, END],
                &[END, END],
            )),
        ),
    ];
    for (what, word) in [
        ("a program of compositions that are never closed", COMP),
        ("a program of ends", END),
    ] {
        let raw = Raw {
            program: vec![word; PROGRAM_WORDS],
            ..plain.clone()
        };
        cases.push(Case {
            what,
            bytes: raw.bytes(),
            due: 9,
        });
    }
    // Texts of nearly the greatest length, `text` filled up with `each`.
    let filled = |text: &str, each: &str, bytes: usize| {
        text.to_string() + &each.repeat((bytes - text.len() - 1) / each.len()) + "."
    };
    let composed = filled("true", ",true", QUERY_BYTES);
    cases.push(Case {
        what: "the longest compositions of texts",
        bytes: start(&filled("p := true", ",true", PROGRAM_BYTES), &composed).bytes(),
        due: 0,
    });
    cases.push(Case {
        what: "a program of many calls",
        bytes: start(&filled("p := p", ",p", PROGRAM_BYTES), &composed).bytes(),
        due: 0,
    });
    let mut names = String::from("p(X) := X=a");
    for number in 0.. {
        let next = format!(
            ",X={}{}",
            ["f", "go", "n_", "z0z"][number % 4],
            number * 7919 % 100_003
        );
        if names.len() + next.len() + 1 > PROGRAM_BYTES {
            break;
        }
        names += &next;
    }
    cases.push(Case {
        what: "many names",
        bytes: start(&(names + "."), "p(X).").bytes(),
        due: 0,
    });
    cases
}
