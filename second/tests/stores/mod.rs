//! Stores: those of runs, damaged ones, and a few by hand.

use second::checker::Checker;
use second::fuzz::linked::Linked;
use second::fuzz::stores::{campaign, Counts};
use second::reader::{read_program, read_query};
use second::store::fault::Fault;
use second::store::form::{header, region, set_header, Raw, LENGTH};
use second::store::{judge, refusal_9, write};
use second::words::*;

fn start(rules: &str, query: &str) -> Raw {
    let program = read_program(rules.as_bytes()).expect("a program");
    let query = read_query(&program, query.as_bytes()).expect("a query");
    let cells = write::start_table(&query);
    write::raw(&Checker::start(query).expect("small"), &cells)
}

/// The only clause that is not met.
fn alone(raw: &Raw) -> Option<Fault> {
    judge(&raw.bytes()).err().and_then(|faults| faults.alone())
}

#[test]
fn random_stores() {
    let mut counts = Counts::default();
    if let Err(what) = campaign(20_240_802, 20_000, &mut counts) {
        panic!("{what}");
    }
    assert_eq!(counts.undecided(), []);
    assert!(counts.slow > 15_000 && counts.steps > 2_000 && counts.most_parts > 1_000);
}

/// This checker's test as a function of C.
unsafe extern "C" fn check(store: *const u8, n: usize, work: *mut u8, w: usize) -> i32 {
    std::slice::from_raw_parts_mut(work, w).fill(0);
    let store = std::slice::from_raw_parts(store, n);
    match store.len() {
        0..LENGTH => 8,
        _ if refusal_9(store).is_some() => 0,
        _ => 9,
    }
}

#[test]
fn a_linked_test_is_compared() {
    let working = 1_000;
    let counts = Linked { check, working }.compare(5, 1_000);
    let [right, wrong] = counts.expect("the same test");
    assert!(right > 100 && wrong > 500);
    unsafe extern "C" fn never(_: *const u8, _: usize, _: *mut u8, _: usize) -> i32 {
        9
    }
    let other = Linked {
        check: never,
        working: 0,
    };
    assert!(other.compare(5, 1_000).is_err());
}

#[test]
fn the_start_in_bytes() {
    let raw = start("", "X = a.");
    let bytes = raw.bytes();
    assert_eq!(bytes.len(), 245_853);
    // The form, root and 4 nodes each of `true` and `fail`, X and a, then counts.
    let numbers: Vec<u32> = (0..6).map(|index| header(&bytes, index)).collect();
    assert_eq!(numbers, [2, 11, 0, 1, 15, 1]);
    // "t" is node 1, "r" behind it 2; "X" is node 9, "a" node 10.
    let names = &bytes[region(&bytes, 0)];
    assert_eq!(names[3..9], [b't', 0, 0, b'r', 1, 0]);
    assert_eq!(names[27..], [b'X', 0, 0, b'a', 0, 0]);
    assert_eq!(bytes[region(&bytes, 2)][..6], [9, 0, 0, 0, 0, 0]);
    let words = [
        [4, 0, 0],
        [4, 1, 0],
        [5, 0, 0],
        [1, 0, 0],
        [0, 0, 0],
        [5, 1, 0],
        [0, 0, 0],
        [4, 3, 0],
        [5, 5, 0],
        [1, 0, 0],
        [3, 10, 0],
        [0, 0, 0],
        [0, 0, 0],
        [0, 0, 0],
        [0, 0, 0],
    ];
    assert_eq!(bytes[region(&bytes, 3)][..45], words.concat());
    assert!(refusal_9(&bytes).is_some());
}

#[test]
fn a_slice_may_be_longer() {
    let mut bytes = start("", "true.").bytes();
    bytes.extend([7; 9]);
    assert!(refusal_9(&bytes).is_some());
    bytes[LENGTH - 1] = 1;
    assert!(refusal_9(&bytes).is_none());
}

#[test]
fn zeros_are_no_store() {
    let mut bytes = vec![0; LENGTH];
    assert!(refusal_9(&bytes).is_none());
    // The least store: the root, and an empty or-box.
    set_header(&mut bytes, 0, 2);
    set_header(&mut bytes, 1, 1);
    set_header(&mut bytes, 4, 2);
    let config = region(&bytes, 3);
    bytes[config][0] = 4;
    assert!(refusal_9(&bytes).is_some());
    set_header(&mut bytes, 1, 0);
    assert!(refusal_9(&bytes).is_none());
}

#[test]
fn hidden_lists_of_a_program_are_as_long_as_a_word_says() {
    // Levels above 65,535 are in scope, but no word names one.
    let mut raw = start("p(X) := (Y : (Z : X = Y)).", "p(X).");
    for at in [3, 5] {
        assert_eq!(raw.program[at], word(NUM, 1));
        raw.program[at].value = 65_535;
    }
    let state = refusal_9(&raw.bytes()).expect("right");
    assert_eq!(write::raw(&state.checker(), &raw.cells), raw);
    raw.program[7].value = 65_535;
    assert!(refusal_9(&raw.bytes()).is_some());
    raw.program[3].value = 1;
    raw.program[5].value = 1;
    let unbound = Fault::Statement(
        second::store::fault::Where::Program,
        second::store::fault::Trouble::Level,
    );
    assert_eq!(alone(&raw), Some(unbound));
}

#[test]
fn the_next_number() {
    let mut raw = start("", "X = Y.");
    let right = |next: u32, raw: &mut Raw| {
        raw.next = next;
        alone(raw)
    };
    assert_eq!(right(2, &mut raw), None);
    assert_eq!(right(65_535, &mut raw), None);
    assert_eq!(right(65_536, &mut raw), Some(Fault::NextOver));
    raw.config = vec![OR, END];
    assert_eq!(right(1, &mut raw), Some(Fault::NextQuery));
    assert_eq!(right(2, &mut raw), None);
}
