//! One judgement by the verified solver and by the second checker's, on the same constraints: microseconds and their ratio.
//!
//! A judgement tells an environment, decides whether it has a solution, tells a store and decides whether it is quiet. Each
//! figure is the least of many rounds, taken in turn, so that both solvers meet the same machine.

use second::config::{Arguments, Constraint, Variable};
use second::names::Name;
use second::solver::Solver;
use std::hint::black_box;
use std::time::Instant;

const ROUNDS: usize = 200;

extern "C" {
    /// crates/work_bench: a slice is passed as its address and its length.
    fn solver_judge(
        words: *const u8,
        words_len: usize,
        locals: *const u8,
        locals_len: usize,
        slice: *mut u8,
        slice_len: usize,
        from: usize,
        mid: usize,
        to: usize,
    ) -> u32;
}

/// The words of constraints: a byte for the class, two for the value.
fn words(constraints: &[Constraint]) -> Vec<u8> {
    let mut out = Vec::new();
    let mut word = |class: u8, value: u32| out.extend([class, value as u8, (value >> 8) as u8]);
    for constraint in constraints {
        match constraint {
            Constraint::Fail => word(5, 3),
            Constraint::Same(x, y) => {
                word(5, 4);
                word(1, x.0.into());
                word(1, y.0.into());
            }
            Constraint::Built(x, label, arguments) => {
                word(5, 5);
                word(1, x.0.into());
                word(3, label.0);
                for y in arguments.as_slice() {
                    word(1, y.0.into());
                }
            }
        }
        word(0, 0);
    }
    out
}

/// The working slice of the verified solver.
struct Slice(Vec<u8>);

impl Slice {
    fn new() -> Slice {
        Slice(vec![0; 524_288])
    }

    /// The answer's number for the first `mid` words as environment and the others as store, without locals.
    fn judge(&mut self, words: &[u8], mid: usize) -> u32 {
        let locals: [u8; 0] = [];
        // Each pointer comes with the length of the slice it points to, and no two slices overlap.
        unsafe {
            solver_judge(
                words.as_ptr(),
                words.len(),
                locals.as_ptr(),
                locals.len(),
                self.0.as_mut_ptr(),
                self.0.len(),
                0,
                mid,
                words.len() / 3,
            )
        }
    }
}

const F: Name = Name(7);

fn built(x: usize, arguments: &[usize]) -> Constraint {
    let arguments: Vec<Variable> = arguments.iter().map(|&y| Variable(y as u16)).collect();
    Constraint::Built(Variable(x as u16), F, Arguments::new(&arguments))
}

fn same(x: usize, y: usize) -> Constraint {
    Constraint::Same(Variable(x as u16), Variable(y as u16))
}

fn chain(n: usize) -> Vec<Constraint> {
    (0..n).map(|i| built(i, &[i + 1])).collect()
}

fn chain_last_first(n: usize) -> Vec<Constraint> {
    (0..n).rev().map(|i| built(i, &[i + 1])).collect()
}

fn equations(n: usize) -> Vec<Constraint> {
    (0..n).map(|i| same(i, i + 1)).collect()
}

/// Half of them terms with eight arguments out of a thousand variables, the other half equations that make them meet in turn.
fn wide(n: usize) -> Vec<Constraint> {
    let terms = n / 2;
    let arguments = |i: usize| -> Vec<usize> { (0..8).map(|k| 4_000 + (8 * i + k) % 1_000).collect() };
    let mut all: Vec<Constraint> = (0..terms).map(|i| built(i, &arguments(i))).collect();
    all.extend((1..terms).map(|i| same(i - 1, i)));
    all
}

/// Two chains whose tops are then equal.
fn joined_chains(n: usize) -> Vec<Constraint> {
    let mut all: Vec<Constraint> = (0..n - 1).map(|i| built(i, &[i + 2])).collect();
    all.push(same(0, 1));
    all
}

/// The least microseconds of the verified solver and of the second checker's.
fn measure(constraints: &[Constraint]) -> (f64, f64) {
    let mid = words(constraints).len() / 3;
    let mut all = constraints.to_vec();
    all.push(same(0, 0));
    let words = words(&all);
    let store = &all[constraints.len()..];
    let mut slice = Slice::new();
    let mut solver = Solver::default();
    solver.reserve(65_535);
    let (mut ours, mut theirs) = (f64::INFINITY, f64::INFINITY);
    for _ in 0..ROUNDS {
        let begin = Instant::now();
        let answer = black_box(slice.judge(black_box(&words), mid));
        ours = ours.min(begin.elapsed().as_secs_f64() * 1e6);
        assert_eq!(answer, 2, "quiet");

        let begin = Instant::now();
        let mark = solver.mark();
        solver.begin_walk();
        let environment = solver.tell(black_box(constraints), 0);
        let told = black_box(solver.tell(black_box(store), 1));
        solver.undo(mark);
        theirs = theirs.min(begin.elapsed().as_secs_f64() * 1e6);
        assert!(environment.satisfiable && told.quiet);
    }
    (ours, theirs)
}

fn main() {
    let kinds: [(&str, fn(usize) -> Vec<Constraint>); 5] = [
        ("chain X1 = f(X2), X2 = f(X3), ..", chain),
        ("the same, last first", chain_last_first),
        ("chain of equations", equations),
        ("wide terms (8 arguments), met in turn", wide),
        ("two chains joined at their tops", joined_chains),
    ];
    println!("microseconds for one judgement, verified / second checker = ratio, at 500, 1,000 and 2,000 constraints");
    for (what, kind) in kinds {
        for n in [500, 1_000, 2_000] {
            let (ours, theirs) = measure(&kind(n));
            print!("{ours:7.1} /{theirs:6.1} = {:4.2}  ", ours / theirs);
        }
        println!("{what}");
    }
}
