//! The search for trees that would contain themselves.
//!
//! Why it is enough to begin where an unbound class got a term. As long as there
//! is no cycle each class has a height. If merging two terms were the first to
//! close a cycle, and no unbound class on it got a term by what follows from
//! that, then in each class on the cycle take the least height that its members
//! had before: an argument of that member is in the next class and is lower, all
//! the way round, which cannot be. What follows from merging terms merges their
//! arguments, and an unbound argument that gets a term is noted as `touched`.

use crate::config::Variable;
use crate::solver::Solver;

/// What the search keeps from one time to the next.
#[derive(Clone, Debug, Default)]
pub(crate) struct Search {
    /// Classes on the way from where it began, each with the arguments that are
    /// still to be visited.
    path: Vec<(Variable, u32, u32)>,
    /// Marks given out so far. A class on the way has the last one.
    marks: u64,
    /// The mark of classes from which no way leads back.
    done: u64,
    /// The state, and the class that got arguments, for which `done` stands.
    done_for: Option<(u64, u32)>,
}

impl Solver {
    /// Whether some class now contains itself: finite trees do not. There was no
    /// cycle before, so one runs through a class where a change may have closed
    /// it. While no old class got new arguments old classes lead to old ones
    /// only, and the search passes them by.
    pub(crate) fn cyclic(&mut self) -> bool {
        if self.touched.is_empty() {
            return false;
        }
        let same = self.same_question();
        if same.is_none() || same != self.search.done_for {
            self.search.marks += 1;
            self.search.done = self.search.marks;
            self.search.done_for = same;
        }
        self.search.marks += 1;
        let mut found = false;
        for index in 0..self.touched.len() {
            let from = self.class(self.touched[index]);
            found = found || self.leads_back(from);
        }
        if same.is_some() {
            // The next one begins there again.
            let from = self.class(self.touched[0]);
            self.cell_mut(from).seen = 0;
        }
        found
    }

    /// If one old class alone got arguments, no two became one, and the search
    /// begins there alone, then other old classes from which no way leads to it
    /// are such in the state before already. They need not be searched again
    /// when the same class gets arguments in the same state: guards side by side
    /// often do that.
    fn same_question(&self) -> Option<(u64, u32)> {
        let [touched] = self.touched[..] else {
            return None;
        };
        let told = &self.telling;
        let alone = told.disturbed == 1 && !told.joined;
        let begins_there = self.cell(self.class(touched)).oldest == told.last_disturbed;
        (alone && begins_there).then_some((self.version, told.last_disturbed))
    }

    /// Whether some way from a class comes to a class that it went through.
    fn leads_back(&mut self, from: Variable) -> bool {
        self.enter(from);
        while let Some((class, next, end)) = self.search.path.pop() {
            if next == end {
                self.cell_mut(class).seen = self.search.done;
                continue;
            }
            self.search.path.push((class, next + 1, end));
            let inner = self.class(self.arguments[next as usize]);
            if self.cell(inner).seen == self.search.marks {
                self.search.path.clear();
                return true;
            }
            self.enter(inner);
        }
        false
    }

    /// Begins the visit of a class unless there is nothing to find in it.
    fn enter(&mut self, class: Variable) {
        let cell = *self.cell(class);
        let passed = self.telling.disturbed == 0 && cell.oldest < self.telling.base;
        if cell.term == 0 || cell.seen == self.search.done || passed {
            return;
        }
        let term = self.terms[cell.term as usize - 1];
        self.cell_mut(class).seen = self.search.marks;
        let visit = (class, term.start, term.start + term.length);
        self.search.path.push(visit);
    }
}

#[cfg(test)]
mod tests {
    use crate::config::{Arguments, Constraint, Variable};
    use crate::names::Name;
    use crate::solver::Solver;

    fn built(x: u16, arguments: &[u16]) -> Constraint {
        let arguments: Vec<_> = arguments.iter().map(|&v| Variable(v)).collect();
        Constraint::Built(Variable(x), Name(0), Arguments::new(&arguments))
    }

    fn same(x: u16, y: u16) -> Constraint {
        Constraint::Same(Variable(x), Variable(y))
    }

    fn told(told: &[Constraint]) -> Solver {
        let mut solver = Solver::default();
        solver.reserve(20);
        assert!(solver.tell(told, 0).satisfiable);
        solver
    }

    #[test]
    fn cycles_have_no_solution() {
        let mut solver = told(&[]);
        assert!(!solver.tell(&[built(0, &[0])], 0).satisfiable);
        let mut solver = told(&[built(0, &[1]), built(1, &[2])]);
        assert!(!solver.tell(&[same(2, 0)], 1).satisfiable);
        let mut solver = told(&[built(0, &[1]), built(1, &[2])]);
        assert!(!solver.tell(&[same(0, 1)], 1).satisfiable);
    }

    /// What was found for a class that did not get arguments itself must not be
    /// kept: here 0 gets them, and 6 is where the search begins.
    #[test]
    fn a_search_from_elsewhere_is_not_kept() {
        let mut solver = told(&[built(6, &[7]), built(6, &[0]), built(3, &[6])]);
        let mark = solver.mark();
        let first = [built(0, &[9]), built(8, &[10]), same(10, 6)];
        assert!(solver.tell(&first, 1).satisfiable);
        solver.undo(mark);
        let second = [built(0, &[9]), built(3, &[10]), built(0, &[6])];
        assert!(!solver.tell(&second, 1).satisfiable);
    }

    /// What was found in one state must not be used in another.
    #[test]
    fn a_search_is_kept_for_its_state_only() {
        // 1 = f(2), 2 = f(3), and 0 stands in 4.
        let mut solver = told(&[built(4, &[0]), built(1, &[2]), built(2, &[3])]);
        let mark = solver.mark();
        for _ in 0..2 {
            assert!(solver.tell(&[built(0, &[1])], 1).satisfiable);
            solver.undo(mark);
        }
        assert!(solver.tell(&[same(3, 0)], 1).satisfiable);
        assert!(!solver.tell(&[built(0, &[1])], 2).satisfiable);
        solver.undo(mark);
        assert!(solver.tell(&[built(0, &[2])], 1).satisfiable);
    }
}
