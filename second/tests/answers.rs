//! The call for one answer: refusals 16 and 17, and what fits exactly.

use second::answers::State;
use second::checker::Checker;
use second::reader::{read_program, read_query};
use second::refusal::Refusal;
use second::steps::read_steps;

fn after(rules: &str, query: &str, steps: &str) -> Checker {
    let program = read_program(rules.as_bytes()).expect("a program");
    let query = read_query(&program, query.as_bytes()).expect("a query");
    let mut checker = Checker::start(query).expect("a start");
    let steps = read_steps(steps.as_bytes()).expect("steps");
    assert_eq!(checker.run(&steps), (steps.len(), None));
    checker
}

#[test]
fn answers_are_counted_from_1() {
    let mut checker = after("", "X = f(Y,Z), Z = Y.", "3 2 0\n1 2 0\n1 2 0\n");
    let text = b"X = f(_0,_0), Y = _0, Z = _0".to_vec();
    assert_eq!(checker.answer(0, 100), Err(Refusal::NoAnswer));
    assert_eq!(checker.answer(1, text.len()), Ok(text.clone()));
    assert_eq!(
        checker.answer(1, text.len() - 1),
        Err(Refusal::AnswerTooLong)
    );
    assert_eq!(checker.answer(2, 0), Err(Refusal::NoAnswer));
    assert_eq!(checker.state(), State::Final);
}

#[test]
fn without_query_variables_the_text_is_true() {
    let mut checker = after("", "(X : X = a).", "4 2 0\n1 2 0\n");
    assert_eq!(checker.answer(1, 4), Ok(b"true".to_vec()));
    assert_eq!(checker.answer(1, 3), Err(Refusal::AnswerTooLong));
}

#[test]
fn numbers_of_unbound_variables_count_in_the_length() {
    // Twelve unbound variables: _0 to _9 have two bytes, _10 and _11 three.
    let query = "A = f(B,C,D,E,F,G,H,I), I = f(J,K,L,M,N).";
    let mut checker = after("", query, "3 2 0\n1 2 0\n1 2 0\n");
    let text = checker.answer(1, 4_096).expect("an answer");
    let text = String::from_utf8(text).expect("text");
    assert!(text.starts_with("A = f(_0,_1,_2,_3,_4,_5,_6,f(_7,_8,_9,_10,_11)), B = _0, "));
    assert!(text.ends_with(", M = _10, N = _11"));
    assert!(checker.answer(1, text.len()).is_ok());
    assert!(checker.answer(1, text.len() - 1).is_err());
}

#[test]
fn a_start_is_open_and_has_no_answers() {
    let mut checker = after("", "true.", "");
    assert_eq!(checker.answer(1, 100), Err(Refusal::NoAnswer));
    assert_eq!(checker.state(), State::Open);
}
