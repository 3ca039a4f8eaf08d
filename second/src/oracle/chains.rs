//! Trees that would contain themselves: long chains of terms, and stores told
//! on top of them one after another and taken back, as guards are.

use super::ground::to_fast;
use super::logic::{Con, Substitution};
use crate::names::Names;
use crate::random::Random;
use crate::solver::Solver;

/// So many variables of a chain are left open, so many are in it, and two more
/// are met only in what is told on top of it.
struct Sizes {
    open: usize,
    chain: usize,
}

impl Sizes {
    fn all(&self) -> usize {
        self.chain + 4
    }

    /// A constraint that links variables.
    fn link(&self, random: &mut Random) -> Con {
        let x = match random.below(4) {
            0 => random.below(self.chain),
            1 => self.chain + 2 + random.below(2),
            _ => random.below(self.open),
        } as u32;
        let y = random.below(self.all()) as u32;
        match random.below(8) {
            0 => Con::Same(x, y),
            1 => Con::Built(x, "f".into(), vec![y, random.below(self.chain) as u32]),
            _ => Con::Built(x, "f".into(), vec![y]),
        }
    }

    /// A store to be told: often the last one with a little changed.
    fn store(&self, random: &mut Random, last: &mut Vec<Con>) -> Vec<Con> {
        if last.len() > 3 || random.once_in(3) {
            last.clear();
        }
        if last.len() > 1 && random.once_in(3) {
            last.remove(random.below(last.len()));
        }
        for _ in 0..random.weighted(&[usize::from(!last.is_empty()), 5, 2]) {
            last.insert(random.below(last.len() + 1), self.link(random));
        }
        last.clone()
    }
}

/// Checks the verdicts on one random chain; hands back what is wrong.
pub fn check(random: &mut Random) -> Result<(), String> {
    let mut solver = Solver::default();
    let mut names = Names::default();
    let most = *random.pick(&[5, 7, 14]);
    let (open, count) = (random.between(1, 3), random.between(4, most));
    let sizes = Sizes { open, chain: count };
    solver.reserve(sizes.all() as u32);
    solver.begin_walk();
    // The first few are left open; the others mostly point further on.
    let mut told: Vec<Con> = Vec::new();
    for x in open..count {
        let next = random.between(x.min(count - 1), count - 1) as u32;
        let from = random.below(count) as u32;
        match random.below(6) {
            0 => {}
            1 => told.push(Con::Built(x as u32, "f".into(), vec![next + 1, from])),
            _ => told.push(Con::Built(x as u32, "f".into(), vec![next + 1])),
        }
    }
    // Something stands around each open one.
    for x in 0..open as u32 {
        let around = random.between(open, count) as u32;
        told.push(Con::Built(count as u32 + 1, "g".into(), vec![x]));
        told.push(Con::Built(around, "f".into(), vec![x]));
    }
    let mut solvable = solver.tell(&to_fast(&told, &mut names), 0).satisfiable;
    let mut inside = Vec::new();
    let mut last = Vec::new();
    for _ in 0..10 {
        if Substitution::solve(&told).is_some() != solvable {
            return Err(format!("solvable {solvable} in one way only: {told:?}"));
        }
        if (!solvable || random.once_in(3)) && !inside.is_empty() {
            let (mark, before) = inside.pop().expect("not empty");
            solver.undo(mark);
            told.truncate(before);
            solvable = true;
        }
        if !solvable {
            return Ok(());
        }
        // Told on top of what stands; some are left standing.
        for _ in 0..8 {
            inside.push((solver.mark(), told.len()));
            let stays = random.once_in(4);
            if stays {
                told.push(sizes.link(random));
            } else {
                told.extend(sizes.store(random, &mut last));
            }
            let more = &told[inside.last().expect("pushed").1..];
            solvable = solver.tell(&to_fast(more, &mut names), 1).satisfiable;
            if Substitution::solve(&told).is_some() != solvable {
                return Err(format!("solvable {solvable} in one way only: {told:?}"));
            }
            if solvable && stays {
                continue;
            }
            let (mark, before) = inside.pop().expect("pushed");
            solver.undo(mark);
            told.truncate(before);
            solvable = true;
        }
    }
    Ok(())
}
