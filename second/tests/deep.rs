//! Deep texts and configurations on a small stack.

use second::checker::Checker;
use second::config::Place;
use second::reader::{read_program, read_query};
use second::record::{record, Texts};
use second::refusal::Refusal;
use second::steps::Step;

fn on_a_small_stack(work: impl FnOnce() + Send + 'static) {
    let thread = std::thread::Builder::new()
        .stack_size(192 * 1024)
        .spawn(work)
        .expect("a thread");
    thread.join().expect("no overflow, no panic");
}

fn refusal(rules: String, query: &str) -> String {
    let texts = Texts {
        rules: rules.into_bytes(),
        query: query.as_bytes().to_vec(),
        steps: vec![],
    };
    let record = String::from_utf8(record(&texts)).expect("text");
    record.lines().nth(1).expect("two lines").to_string()
}

fn step(rule: u32, place: usize, argument: usize) -> Step {
    Step {
        rule,
        place: Place(place as u32),
        argument: Place(argument as u32),
    }
}

#[test]
fn brackets_by_the_thousand() {
    on_a_small_stack(|| {
        let nested = |open: &str, n: usize, close: &str| {
            format!("p := {}true{}", open.repeat(n), close.repeat(n))
        };
        assert_eq!(refusal("(".repeat(16_384), "true."), "refusal 2");
        assert_eq!(refusal(nested("(", 5_000, ")."), "true."), "refusal 2");
        assert_eq!(refusal(nested("(", 8_000, ")") + ".", "true."), "refusal 3");
        assert_eq!(
            refusal(nested("(", 8_000, ")") + ".#", "true."),
            "refusal 2"
        );
        assert_eq!(
            refusal(nested("(X:", 3_000, ")") + ".", "true."),
            "refusal 3"
        );
        let guards = nested("(true?", 1_500, ")") + ".";
        assert_eq!(refusal(guards, "true."), "refusal 3");
        let bodies = format!("p := {}true{}.", "(".repeat(1_500), "?true)".repeat(1_500));
        assert_eq!(refusal(bodies, "true."), "refusal 3");
        assert_eq!(
            refusal("p := true".to_string() + &",p".repeat(8_000) + ".", "p."),
            "refusal 0"
        );
    });
}

#[test]
fn or_boxes_nested_by_splitting() {
    on_a_small_stack(|| {
        // A choice of many clauses, split again and again inside the last copy.
        let clauses = vec!["true?true"; 200].join(";");
        let program = read_program(b"").expect("empty");
        let query = format!("({clauses}).");
        let query = read_query(&program, query.as_bytes()).expect("a query");
        let mut checker = Checker::start(query).expect("small enough");
        assert_eq!(checker.step(step(5, 2, 0)), Ok(()));
        for clause in 0..200 {
            assert_eq!(checker.step(step(1, 5 + 2 * clause, 0)), Ok(()));
        }
        let mut choice = 2;
        for _ in 0..199 {
            assert_eq!(checker.step(step(12, choice, choice - 1)), Ok(()));
            // or-box, first copy of four goals; then the second and its choice-box
            choice += 5;
        }
        assert_eq!(checker.step(step(12, choice, 0)), Err(Refusal::Condition));
        assert!(checker.allowed().len() >= 199);
    });
}

#[test]
fn guards_nested_by_recursion() {
    on_a_small_stack(|| {
        let program = read_program(b"p := (p ? true).").expect("a program");
        let query = read_query(&program, b"p.").expect("a query");
        let mut checker = Checker::start(query).expect("small");
        // A level has 4 parts: choice-box, guarded goal, body and and-box. With
        // 511 levels there are 2 + 4 * 511 + 1 = 2,047 parts, and unfolding the
        // atom into a choice of 4 parts would give 2,050.
        let mut place = 2;
        for _ in 0..511 {
            assert_eq!(checker.step(step(2, place, 0)), Ok(()));
            assert_eq!(checker.step(step(5, place, 0)), Ok(()));
            place += 3;
        }
        assert_eq!(checker.config.parts, 2_047);
        assert_eq!(checker.step(step(2, place, 0)), Err(Refusal::Parts));
        assert_eq!(checker.step(step(9, 1, 0)), Err(Refusal::Condition));
    });
}

#[test]
fn terms_of_any_depth_and_size() {
    on_a_small_stack(|| {
        // X0 = f(X1), .. a thousand deep, then X0 joined with itself shifted.
        let program =
            read_program(b"s(X) := (C : X = f(C), s(C)). t(X) := (C : X = g(C,C), t(C)).")
                .expect("a program");
        for (query, letters) in [("s(X).", "s"), ("t(X), t(Y), X = Y.", "t")] {
            let query = read_query(&program, query.as_bytes()).expect("a query");
            let mut checker = Checker::start(query).expect("small");
            let round = [step(2, 2, 0), step(4, 2, 0), step(3, 2, 0), step(1, 2, 0)];
            if letters == "s" {
                let (_, refusal) = checker.run(&round.repeat(900));
                assert_eq!(refusal, None);
                assert_eq!(checker.step(step(9, 1, 0)), Err(Refusal::Condition));
                continue;
            }
            assert_eq!(checker.run(&[step(3, 2, 0), step(3, 3, 0)]), (2, None));
            assert_eq!(checker.run(&round.repeat(400)), (1600, None));
            let second = round.map(|s| step(s.rule, 3, 0));
            assert_eq!(checker.run(&second.repeat(400)), (1600, None));
            assert_eq!(checker.step(step(1, 4, 0)), Ok(()));
            // Terms of 2^400 leaves are one class each: this ends at once.
            assert_eq!(checker.step(step(9, 1, 0)), Err(Refusal::Condition));
        }
    });
}

#[test]
fn stores_around_grow_between_questions() {
    let program = read_program(b"s(Y) := Y = c, s(Y).").expect("a program");
    let query = b"((Y = c -> true ; true -> true) ? true), s(Y).";
    for rounds in [1, 1_100] {
        let query = read_query(&program, query).expect("a query");
        let mut checker = Checker::start(query).expect("small");
        let (inner, outer) = (step(5, 5, 0), step(5, 2, 0));
        let before = [step(3, 2, 0), outer, inner, step(1, 8, 0)];
        assert_eq!(checker.run(&before), (4, None));
        // Y = c says something new, two boxes down.
        let condition = step(7, 6, 0);
        assert_eq!(checker.step(condition), Err(Refusal::Condition));
        // It is stored in the outer box, once or so often that notes on what
        // grew are dropped.
        let round = [step(2, 11, 0), step(3, 11, 0), step(1, 11, 0)];
        let (accepted, refusal) = checker.run(&round.repeat(rounds));
        assert_eq!((accepted, refusal), (3 * rounds, None));
        assert_eq!(checker.step(condition), Ok(()));
    }
}
