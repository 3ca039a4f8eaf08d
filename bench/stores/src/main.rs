//! Right stores of 500, 1,000 and 2,000 parts, checked by the verified check and by the second checker's: nanoseconds for each
//! number or word of the table of names, the program and the configuration, and their ratio.
//!
//! Each figure is the least of many rounds, taken in turn, so that both meet the same machine. The verified check is lent its
//! working slice and leaves it zero; the second checker's makes its own tables and the state that the store holds.

use second::checker::Checker;
use second::config::Place;
use second::limits::{PARTS, PROGRAM_BYTES};
use second::reader::{read_program, read_query};
use second::steps::Step;
use second::store::form::Raw;
use second::store::{refusal_9, write};
use second::words::{END, OR};
use std::hint::black_box;
use std::time::Instant;
use verified_stores::{check, WORKING};

const ROUNDS: usize = 500;

const RULES: &str = "d(X) := (d(X), e(X) ? e(X)).\n\
                     e(X) := (C : X = f(C), e(C)).\n\
                     c(X) := (X = a ? true ; X = b ? c(X)), c(X).\n";

/// A round of steps: rules and places, the places of the next round being `further`.
struct Kind {
    what: &'static str,
    query: &'static str,
    round: &'static [(u32, u32)],
    further: u32,
}

const KINDS: [Kind; 3] = [
    Kind {
        what: "guards in guards",
        query: "d(X).",
        round: &[(2, 0), (5, 0), (3, 3)],
        further: 3,
    },
    Kind {
        what: "one and-box with many locals and constraints",
        query: "e(X).",
        round: &[(2, 0), (4, 0), (3, 0), (1, 0)],
        further: 0,
    },
    Kind {
        what: "many choice-boxes in one and-box",
        query: "c(X).",
        round: &[(2, 0), (3, 0), (5, 0), (1, 3), (1, 5)],
        further: 5,
    },
];

/// The store of a run that goes on while it has at most so many parts, and its parts.
fn store(kind: &Kind, rules: &str, parts: usize) -> (Raw, usize) {
    let program = read_program(rules.as_bytes()).expect("a program");
    let query = read_query(&program, kind.query.as_bytes()).expect("a query");
    let cells = write::start_table(&query);
    let mut checker = Checker::start(query).expect("within the limits");
    checker.limits.parts = parts.min(PARTS);
    let mut places = 2;
    loop {
        for &(rule, place) in kind.round {
            let step = Step {
                rule,
                place: Place(places + place),
                argument: Place(0),
            };
            if checker.step(step).is_err() {
                return (write::raw(&checker, &cells), checker.config.parts);
            }
        }
        places += kind.further;
    }
}

/// The program with as many more definitions as there may be, each with names of its own.
fn long_program() -> String {
    let mut text = RULES.to_string();
    for number in 0..125 {
        let more = format!(
            "append{number}(X,Y,Z) :=\n  (E,X1,Z1 :\n    ( X = nil -> Z = Y\n    ; true -> X = cons{number}(E,X1), append{number}(X1,Y,Z1), Z = cons{number}(E,Z1) )).\n"
        );
        if text.len() + more.len() > PROGRAM_BYTES {
            break;
        }
        text += &more;
    }
    text
}

/// The least nanoseconds of the verified check and of the second checker's.
fn measure(raw: &Raw) -> (f64, f64) {
    let bytes = raw.bytes();
    let mut work = vec![0; WORKING];
    let (mut ours, mut theirs) = (f64::INFINITY, f64::INFINITY);
    for _ in 0..ROUNDS {
        let begin = Instant::now();
        let answer = check(black_box(&bytes), black_box(&mut work));
        ours = ours.min(begin.elapsed().as_nanos() as f64);
        assert_eq!(answer, 0, "a right store");

        let begin = Instant::now();
        let state = black_box(refusal_9(black_box(&bytes)));
        theirs = theirs.min(begin.elapsed().as_nanos() as f64);
        assert!(state.is_some(), "a right store");
    }
    (ours, theirs)
}

fn row(what: &str, raw: &Raw, parts: usize) {
    let (ours, theirs) = measure(raw);
    let words = raw.cells.len() + raw.program.len() + raw.config.len();
    let each = 1.0 / words as f64;
    println!(
        "| {what} | {parts} | {words} | {:.0} | {:.0} | {:.1} | {:.1} | {:.2} |",
        ours / 1e3,
        theirs / 1e3,
        ours * each,
        theirs * each,
        ours / theirs
    );
}

fn main() {
    println!("| Store | Parts | Words | Verified, µs | Second checker's, µs | Verified, ns a word | Second checker's, ns a word | Ratio |");
    println!("|---|---|---|---|---|---|---|---|");
    let (start, parts) = store(&KINDS[0], RULES, 4);
    row("a start", &start, parts);
    for kind in &KINDS {
        for parts in [500, 1_000, 2_000] {
            let (raw, parts) = store(kind, RULES, parts);
            row(kind.what, &raw, parts);
        }
    }
    for parts in [500, 1_000, 2_000] {
        let config = [vec![OR; parts], vec![END; parts]].concat();
        let raw = Raw {
            config,
            ..start.clone()
        };
        row("or-boxes in or-boxes", &raw, parts);
    }
    let program = long_program();
    let (raw, parts) = store(&KINDS[0], &program, 2_000);
    let what = format!("guards in guards, a program of {} bytes", program.len());
    row(&what, &raw, parts);
}
