//! Steps on configurations of 125 to 2,000 parts by the verified calls and by the second checker: nanoseconds for each step of a steps
//! text, for a call with one step, and the ratio of both.
//!
//! Each figure is the least of several rounds, taken in turn, so that both meet the same machine. The verified call begins with a
//! store in bytes, checks that it is well formed, and leaves its working slice zero; the second checker goes on from its own
//! configuration, with the stores that it told to its solver before.

use second::bench::{conditions, nest, Case, KINDS};
use second::fuzz::walk;
use second::store::write;
use std::hint::black_box;
use std::time::Instant;
use verified_calls::{run, step, WORKING};

const ROUNDS: usize = 15;
/// The most bytes of a steps text.
const TEXT: usize = 16_384;

struct Measured {
    text: f64,
    single: f64,
    second: f64,
}

fn measure(case: &Case) -> Measured {
    let cells = write::start_table(&case.checker.query);
    let store = write::raw(&case.checker, &cells).bytes();
    let mut text = Vec::new();
    let mut steps = 0;
    for &taken in &case.steps {
        let line = walk::line(taken);
        if text.len() + line.len() > TEXT {
            break;
        }
        text.extend_from_slice(line.as_bytes());
        steps += 1;
    }
    // a refused step ends a text: then only the first is measured
    let mut due = case.checker.clone();
    due.limits.parts = 2_048;
    let (accepted, _) = due.run(&case.steps[..steps]);
    let steps = accepted.max(1);
    let mut work = vec![0; WORKING];
    let mut least = Measured {
        text: f64::INFINITY,
        single: f64::INFINITY,
        second: f64::INFINITY,
    };
    for _ in 0..ROUNDS {
        let mut checker = case.checker.clone();
        let begin = Instant::now();
        for &taken in &case.steps[..steps] {
            let _ = black_box(checker.step(taken));
        }
        least.second = least.second.min(begin.elapsed().as_nanos() as f64 / steps as f64);
        let mut bytes = store.clone();
        let begin = Instant::now();
        let (got, _) = black_box(run(&text, &mut bytes, &mut work));
        least.text = least.text.min(begin.elapsed().as_nanos() as f64 / steps as f64);
        assert_eq!(got, accepted, "{}", case.what);
        let mut bytes = store.clone();
        let first = case.steps[0];
        let begin = Instant::now();
        black_box(step(
            &mut bytes,
            &mut work,
            first.rule as usize,
            first.place.0 as usize,
            first.argument.0 as usize,
        ));
        least.single = least.single.min(begin.elapsed().as_nanos() as f64);
    }
    least
}

/// A call that is refused as soon as the store is checked: what every call costs on it.
fn checked(case: &Case) -> f64 {
    let cells = write::start_table(&case.checker.query);
    let mut store = write::raw(&case.checker, &cells).bytes();
    let mut work = vec![0; WORKING];
    let mut least = f64::INFINITY;
    for _ in 0..ROUNDS {
        let begin = Instant::now();
        assert_eq!(black_box(step(&mut store, &mut work, 0, 0, 0)), 10);
        least = least.min(begin.elapsed().as_nanos() as f64);
    }
    least
}

fn main() {
    println!("| Steps | Parts | steps text, ns a step | second checker | ratio | one call, ns |");
    println!("|---|---|---|---|---|---|");
    for kind in KINDS {
        for parts in [125, 250, 500, 1_000, 2_000] {
            let case = kind(parts);
            let m = measure(&case);
            println!(
                "| {} | {} | {:.0} | {:.0} | {:.1} | {:.0} |",
                case.what,
                case.checker.config.parts,
                m.text,
                m.second,
                m.text / m.second,
                m.single
            );
        }
    }
    println!();
    println!("| Boxes nested | Parts | one call, ns | of it the check of the store | second checker |");
    println!("|---|---|---|---|---|");
    for boxes in [30, 100, 300] {
        let case = nest(boxes);
        let m = measure(&case);
        println!("| {boxes} | {} | {:.0} | {:.0} | {:.0} |", case.checker.config.parts, m.single, checked(&case), m.second);
    }
    println!();
    println!("| Choice-boxes of `->` | Guards of each | Parts | one call, ns | of it the check of the store | second checker |");
    println!("|---|---|---|---|---|---|");
    for (boxes, guards, links) in [(1, 2, 100), (20, 2, 100), (80, 2, 100), (160, 2, 100), (1, 40, 100), (1, 160, 100), (1, 320, 100)] {
        let case = conditions(boxes, guards, links);
        let m = measure(&case);
        println!("| {boxes} | {guards} | {} | {:.0} | {:.0} | {:.0} |", case.checker.config.parts, m.single, checked(&case), m.second);
    }
}
