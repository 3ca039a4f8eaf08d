//! Measurements: nanoseconds for representative steps at 500, 1,000 and 2,000
//! parts.

use crate::checker::Checker;
use crate::config::Place;
use crate::reader::{read_program, read_query};
use crate::record::{record, Texts};
use crate::steps::Step;
use std::fmt::Write;
use std::time::Instant;

/// What is measured: a configuration, and steps that are timed on copies of it.
pub struct Case {
    pub what: &'static str,
    pub checker: Checker,
    pub steps: Vec<Step>,
    pub copies: usize,
}

/// A step of rule and place, the argument being 0.
fn step(rule: u32, place: usize) -> Step {
    splitting_step(rule, place, 0)
}

fn splitting_step(rule: u32, place: usize, argument: usize) -> Step {
    Step {
        rule,
        place: Place(place as u32),
        argument: Place(argument as u32),
    }
}

/// A query's configuration after some steps.
fn checker(rules: &str, query: &str, steps: &[Step]) -> Checker {
    let program = read_program(rules.as_bytes()).expect("a program");
    let query = read_query(&program, query.as_bytes()).expect("a query");
    let mut checker = Checker::start(query).expect("within the limits");
    let (accepted, refusal) = checker.run(steps);
    assert_eq!(refusal, None, "step {accepted}");
    checker
}

/// Takes a composition of `count` members at a place apart.
fn apart(place: usize, count: usize) -> impl Iterator<Item = Step> {
    (place..place + count - 1).map(|place| step(3, place))
}

/// A query of some atoms among waiting members, so that there are about so many
/// parts, half of them before the atoms and half after them; the steps that
/// take it apart, and the first atom's place then. A group of eight at a time
/// is unfolded, since compositions are parts too.
const WAIT: &str = "w := true.\nv := w,w,w,w,w,w,w,w.\n";

fn among(atoms: &[&str], parts: usize) -> (String, Vec<Step>, usize) {
    let groups = parts / 16;
    let query = format!("{}{}{}.", "v,".repeat(groups), atoms.join(","), ",v".repeat(groups));
    let members = 2 * groups + atoms.len();
    let mut steps: Vec<Step> = apart(2, members).collect();
    for member in (0..members).rev().filter(|m| !(groups..groups + atoms.len()).contains(m)) {
        steps.push(step(2, 2 + member));
        steps.extend(apart(2 + member, 8));
    }
    (query, steps, 2 + 8 * groups)
}

/// A loop of rules 2, 5, 1, 9, 11, 1, 6 among waiting members.
fn looping(parts: usize) -> Case {
    let rules = format!("{WAIT}p := (fail ? true ; true ? p).\n");
    let (query, before, at) = among(&["p"], parts);
    let round = [(2, 0), (5, 0), (1, 3), (9, 2), (11, 1), (1, 3), (6, 0)];
    let round = round.map(|(rule, place)| step(rule, at + place));
    Case {
        what: "rules 2, 5, 1, 9, 11, 1, 6 in turn",
        checker: checker(&rules, &query, &before),
        steps: round.repeat(200),
        copies: 50,
    }
}

/// Rules 3 and 1 through a long composition, from the front.
fn storing(parts: usize) -> Case {
    let count = parts / 2 - 2;
    let query = "X=a,".repeat(count) + "X=a.";
    Case {
        what: "rules 3 and 1 in turn, all atoms stored",
        checker: checker("", &query, &[]),
        steps: [step(3, 2), step(1, 2)].repeat(count),
        copies: 100,
    }
}

/// Quiet tests under a store of half the parts that hangs together: rules 7, 6.
fn quiet(parts: usize) -> Case {
    let count = parts / 2 - 10;
    let rules = "s(X) := (C : X = f(C), s(C)).\n\
                 p(X) := (Z : X = f(Z) -> p(X) ; true -> true).\n";
    let mut before = vec![step(3, 2)];
    before.extend([step(2, 2), step(4, 2), step(3, 2), step(1, 2)].repeat(count));
    let round = [step(2, 3), step(5, 3), step(1, 6), step(7, 4), step(6, 3)];
    Case {
        what: "rules 2, 5, 1, 7, 6 in turn, quiet under a store of half the parts",
        checker: checker(rules, "s(X), p(X).", &before),
        steps: round.repeat(10),
        copies: 300,
    }
}

/// Quiet tests inside guards that are nested in one another: rules 7, 6.
fn quiet_deep(parts: usize) -> Case {
    let levels = parts / 5 - 6;
    let rules = "d(X) := (d(X), p(X) ? true).\n\
                 p(X) := (Z : X = Z -> p(X) ; true -> true).\n";
    let mut before = Vec::new();
    for level in 0..levels {
        let at = 2 + 3 * level;
        before.extend([step(2, at), step(5, at), step(3, at + 3)]);
    }
    let at = 2 + 3 * levels + 1;
    let round = [(2, 0), (5, 0), (1, 3), (7, 1), (6, 0)];
    let round = round.map(|(rule, place)| step(rule, at + place));
    // One round before: the stores on the way down have been told.
    before.extend(round);
    Case {
        what: "rules 2, 5, 1, 7, 6 in turn, inside nested guards",
        checker: checker(rules, "d(X).", &before),
        steps: round.repeat(10),
        copies: 300,
    }
}

/// The first quiet test after the store was made.
fn quiet_afresh(parts: usize) -> Case {
    let mut case = quiet(parts);
    case.checker.run(&case.steps[..3]);
    case.what = "rule 7 alone, that store told to the solver afresh";
    case.steps.drain(..3);
    case.steps.truncate(1);
    case
}

/// An and-box of many choice-boxes, two solved guards each.
fn choices(parts: usize) -> Checker {
    let count = parts / 9;
    let rules = "c(X,Y) := (X=a?true;Y=b?true).\n";
    let query = "c(X,Y),".repeat(count - 1) + "c(X,Y).";
    let mut before: Vec<Step> = apart(2, count).collect();
    before.extend(guards(count));
    checker(rules, &query, &before)
}

/// The steps that unfold `count` atoms from place 2 on into choice-boxes of two
/// guards and store these.
fn guards(count: usize) -> impl Iterator<Item = Step> {
    let at = (0..count).map(|i| 2 + 5 * i);
    at.flat_map(|at| [step(2, at), step(5, at), step(1, at + 3), step(1, at + 5)])
}

/// Splitting with the top named: all goals are walked, nearly all is copied.
fn splitting(parts: usize) -> Case {
    let mut checker = choices(parts);
    checker.limits.parts = 2 * parts;
    Case {
        what: "rule 12, the top named, nearly everything copied",
        checker,
        steps: vec![splitting_step(12, 2, 0)],
        copies: 500,
    }
}

/// The stability walk alone: refused by 15 in the end, nothing is rewritten.
fn stability_walk(parts: usize) -> Case {
    let mut checker = choices(parts);
    checker.limits.parts = checker.config.parts;
    Case {
        what: "rule 12, the top named, walked and then refused by 15",
        checker,
        steps: vec![splitting_step(12, 2, 0); 20],
        copies: 50,
    }
}

/// A stability walk made hard: each guard lets an old variable, which stands in
/// a term, be f of a long chain of terms, so the search for cycles runs through
/// the chain for every guard.
fn hard_walk(parts: usize) -> Case {
    let (links, count) = (parts / 4, parts / 18);
    let rules = "s(X) := (C : X = f(C), (true | s(C) ; true | true)).\n\
                 c(X,Y) := (X=f(Y)?true;X=f(Y)?true).\n";
    let query = "s(Y), W = f(X),".to_string() + &"c(X,Y),".repeat(count - 1) + "c(X,Y).";
    let mut before: Vec<Step> = apart(2, count + 2).collect();
    let link = [(2, 2), (4, 2), (3, 2), (1, 2), (5, 2)];
    let link = link.map(|(rule, place)| step(rule, place));
    for _ in 0..links {
        before.extend(link);
        before.extend([step(1, 5), step(8, 3), step(6, 2)]);
    }
    before.extend(link);
    before.extend([step(1, 8), step(8, 6), step(6, 2), step(1, 2), step(1, 2)]);
    before.extend(guards(count));
    let mut checker = checker(rules, &query, &before);
    checker.limits.parts = checker.config.parts;
    Case {
        what: "the same made hard: the search for cycles runs through a long chain each time",
        checker,
        steps: vec![splitting_step(12, 2, 0); 20],
        copies: 50,
    }
}

/// Splitting small guards, each itself named, among waiting members: up to 16
/// of them, the last first, so that the places of the others stay.
fn splitting_inside(parts: usize) -> Case {
    let rules = format!("{WAIT}p := ((Y : (Y = a ? true ; Y = b ? true)) ? true).\n");
    let guards = (parts / 32).clamp(1, 16);
    // a guard has 14 parts, and some 26 once it is split
    let (query, mut before, at) = among(&vec!["p"; guards], parts.saturating_sub(26 * guards));
    let more = [(2, 0), (5, 0), (4, 3), (5, 3), (1, 6), (1, 8)];
    for guard in (0..guards).rev() {
        before.extend(more.map(|(rule, place)| step(rule, at + guard + place)));
    }
    // a guard has eight places then
    let places = (0..guards).rev().map(|guard| at + 8 * guard);
    Case {
        what: "rule 12 in small guards, each itself named",
        checker: checker(&rules, &query, &before),
        steps: places.map(|place| splitting_step(12, place + 3, place + 2)).collect(),
        copies: 500,
    }
}

/// Splitting at the bottom of a nest of boxes, the top named: each box is
/// entered, told and tested, and left again. Each store binds a variable of the
/// box around it to a term over its own.
pub fn nest(boxes: usize) -> Case {
    let rules = "c(X) := (Z : X = f(Z), (true | c(Z) ; true | e) ? true).\n\
                 e := (true ? true ; true ? true).\n";
    let mut before = Vec::new();
    for level in 1..=boxes {
        let at = 2 + 3 * (level - 1);
        let down = if level < boxes { [(1, 6), (8, 4), (6, 3)] } else { [(1, 9), (8, 7), (6, 3)] };
        for (rule, place) in [(2, 0), (5, 0), (3, 3), (1, 3), (5, 3)].into_iter().chain(down) {
            before.push(step(rule, at + place));
        }
    }
    let at = 2 + 3 * boxes;
    before.extend([(2, 0), (5, 0), (1, 3), (1, 5)].map(|(rule, place)| step(rule, at + place)));
    Case {
        what: "rule 12 at the bottom of a nest of boxes, the top named",
        checker: checker(rules, "c(X).", &before),
        steps: vec![splitting_step(12, at, 0)],
        copies: 300,
    }
}

/// Splitting beside choice-boxes of `->` whose guards are all solved and not
/// quiet, the top named, under a store of some constraints.
pub fn conditions(boxes: usize, guards: usize, links: usize) -> Case {
    let clauses = vec!["X=a->true"; guards].join(";");
    let rules = format!("q(X) := (X=a?true;X=b?true).\nc(X) := ({clauses}).\n");
    let query = format!("{}q(X){}.", "Z=f(Y),".repeat(links), ",c(X)".repeat(boxes));
    let mut before: Vec<Step> = apart(2, links + 1 + boxes).collect();
    before.extend(vec![step(1, 2); links]);
    let mut at = 2;
    for count in std::iter::once(2).chain(std::iter::repeat_n(guards, boxes)) {
        before.extend([step(2, at), step(5, at)]);
        before.extend((0..count).map(|i| step(1, at + 3 + 2 * i)));
        at += 1 + 2 * count;
    }
    Case {
        what: "rule 12 beside guards of `->`, the top named",
        checker: checker(&rules, &query, &before),
        steps: vec![splitting_step(12, 2, 0)],
        copies: 300,
    }
}

impl Case {
    /// Nanoseconds a step, the least of all copies: others use the machine too.
    fn measure(&self) -> f64 {
        let mut least = f64::INFINITY;
        for _ in 0..self.copies {
            let mut checker = self.checker.clone();
            let begin = Instant::now();
            for &step in &self.steps {
                let _ = std::hint::black_box(checker.step(step));
            }
            least = least.min(begin.elapsed().as_nanos() as f64 / self.steps.len() as f64);
        }
        least
    }
}

/// A run of 2,038 steps from its texts to its record: all is read, 1,017
/// constraints are stored and an and-box of 1,020 parts is split.
fn whole_run() -> f64 {
    let texts = Texts {
        rules: vec![],
        query: format!("(true?true;true?true){}.", ",X=a".repeat(1_017)).into_bytes(),
        steps: format!(
            "3 2 0\n{}1 3 0\n5 2 0\n1 5 0\n1 7 0\n12 2 1\n",
            "3 3 0\n1 3 0\n".repeat(1_016)
        )
        .into_bytes(),
    };
    let expected: &[u8] = b"accepted 2038\nrefusal 0\nstate open\n";
    let mut least = f64::INFINITY;
    for _ in 0..50 {
        let begin = Instant::now();
        assert_eq!(std::hint::black_box(record(&texts)), expected);
        least = least.min(begin.elapsed().as_nanos() as f64);
    }
    least
}

/// What is measured, each for configurations of about so many parts.
pub const KINDS: [fn(usize) -> Case; 9] = [
    storing,
    looping,
    quiet,
    quiet_afresh,
    quiet_deep,
    splitting_inside,
    stability_walk,
    hard_walk,
    splitting,
];

/// The table of all measurements, each the least of several rounds.
pub fn report() -> String {
    let sizes = [500, 1_000, 2_000];
    let cases: Vec<Case> = KINDS.iter().flat_map(|kind| sizes.map(kind)).collect();
    let mut least = vec![f64::INFINITY; cases.len()];
    for _ in 0..4 {
        for (case, least) in cases.iter().zip(&mut least) {
            *least = least.min(case.measure());
        }
    }
    let mut text = String::from("ns a step, in brackets the parts of the configuration\n");
    for (cases, least) in cases.chunks(sizes.len()).zip(least.chunks(sizes.len())) {
        for (case, ns) in cases.iter().zip(least) {
            let _ = write!(text, "{ns:7.0} ({:4})", case.checker.config.parts);
        }
        let _ = writeln!(text, "  {}", cases[0].what);
    }
    let _ = writeln!(
        text,
        "{:.0} ns: a run of 2,038 steps from its texts",
        whole_run()
    );
    text
}
