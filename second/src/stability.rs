//! Stable goals, in one walk.
//!
//! "A goal is stable when no determinate step rewrites it or anything inside it,
//! and for each and-box at or inside it, the stores from the goal down to that
//! box are together quiet, with all locals inside the goal as V, for the goal's
//! environment." "Limits do not enter stability."

use crate::config::{Config, Goal, Shape};
use crate::environment::Environment;
use crate::rules::{self, condition, Judge, Rewrites};
use crate::solver::Mark;
use crate::syntax::Code;

/// Answers from the stores told so far in the walk.
struct Walking<'a> {
    environment: &'a mut Environment,
    /// For each and-box that the walk is in, the state before its store.
    inside: Vec<Mark>,
}

impl Judge for Walking<'_> {
    fn quiet(&mut self, config: &Config, guard: Goal) -> bool {
        let Shape::And(id) = config.shape(guard) else {
            return false;
        };
        let level = self.inside.len() as u16 + 1;
        let mark = self.environment.solver.mark();
        let told = self.environment.enter(config, id, level);
        self.environment.solver.undo(mark);
        told.quiet
    }

    /// The walk ends at the first store without solution, before this is asked.
    fn satisfiable(&mut self, _: &Config, _: Goal) -> bool {
        true
    }
}

impl Walking<'_> {
    /// What stability asks of one goal in `whole`, the goals inside it aside.
    fn undisturbed(&mut self, code: &Code, config: &Config, goal: Goal, whole: Goal) -> bool {
        if let Shape::And(id) = config.shape(goal) {
            self.inside.push(self.environment.solver.mark());
            let level = self.inside.len() as u16;
            // Without solution rule 9 rewrites the and-box.
            if !self.environment.enter(config, id, level).quiet_outside {
                return false;
            }
        }
        let kind = rules::kind(code, config, goal);
        rules::determinate(kind).all(|row| {
            let inside = row.rewrites == Rewrites::Place || goal != whole;
            !inside || !condition(row.rule, config, goal, self)
        })
    }

    fn leave(&mut self, config: &Config, goal: Goal) {
        if let Shape::And(_) = config.shape(goal) {
            let mark = self.inside.pop().expect("entered");
            self.environment.solver.undo(mark);
        }
    }

    /// Visits `whole` and all goals in it, parent before child, left to right.
    fn walk(&mut self, code: &Code, config: &Config, whole: Goal) -> bool {
        let mut goal = whole;
        loop {
            if !self.undisturbed(code, config, goal, whole) {
                return false;
            }
            if let Some(first) = config.first(goal) {
                goal = first;
                continue;
            }
            loop {
                self.leave(config, goal);
                if goal == whole {
                    return true;
                }
                if let Some(next) = config.after(goal) {
                    goal = next;
                    break;
                }
                goal = config.parent(goal).expect("inside the whole");
            }
        }
    }
}

/// Whether a goal is stable.
pub fn stable(code: &Code, config: &Config, environment: &mut Environment, goal: Goal) -> bool {
    // In an environment without solutions rule 9 rewrites each and-box inside,
    // and a goal that is asked about holds one.
    if !environment.load(config, config.parent(goal)) {
        return false;
    }
    let mark = environment.solver.mark();
    let mut walking = Walking {
        environment,
        inside: Vec::new(),
    };
    let stable = walking.walk(code, config, goal);
    environment.solver.undo(mark);
    stable
}

/// Whether a goal is `inner` or contains it.
pub fn contains(config: &Config, goal: Goal, inner: Goal) -> bool {
    let mut at = Some(inner);
    while let Some(here) = at {
        if here == goal {
            return true;
        }
        at = config.parent(here);
    }
    false
}
