//! Statements in a configuration: the variables that their levels stand for.

use crate::config::{Arguments, Closure, Config, Goal, Shape, Variable};
use crate::syntax::{Code, Level, Run, StatementId};

impl Config {
    /// The variable that a level stands for in a statement.
    pub fn variable(&self, closure: Closure, level: Level) -> Variable {
        self.frames[closure.frame as usize + usize::from(level.0)]
    }

    /// The arguments that levels stand for.
    pub fn arguments(&self, code: &Code, closure: Closure, run: Run) -> Arguments {
        let mut list = [Variable(0); crate::limits::ARGUMENTS];
        let levels = &code.arguments[run.range()];
        for (to, &level) in list.iter_mut().zip(levels) {
            *to = self.variable(closure, level);
        }
        Arguments {
            length: run.length as u8,
            list,
        }
    }

    /// A statement under the same variables.
    pub fn same_frame(&self, closure: Closure, statement: StatementId) -> Closure {
        let frame = closure.frame;
        Closure { statement, frame }
    }

    /// A statement with variables for its lowest levels, as a definition's body
    /// has arguments for parameters.
    pub fn closure(
        &mut self,
        statement: StatementId,
        variables: impl IntoIterator<Item = Variable>,
    ) -> Closure {
        let frame = self.frames.len() as u32;
        self.frames.extend(variables);
        Closure { statement, frame }
    }

    /// The variables of a statement's lowest levels.
    pub fn frame(&self, code: &Code, closure: Closure) -> &[Variable] {
        &self.frames[closure.frame as usize..][..code.scope(closure.statement)]
    }

    /// The variables that `opened` will take for so many hidden ones.
    pub fn fresh(&self, hidden: u16) -> std::ops::Range<u16> {
        let first = self.next as u16;
        first..first + hidden
    }

    /// Statement `inner` of `closure`, with `hidden` fresh variables for the
    /// levels that are new in it. "Fresh variables take the next numbers never
    /// used before, in order of their lists."
    pub fn opened(
        &mut self,
        code: &Code,
        closure: Closure,
        hidden: u16,
        inner: StatementId,
    ) -> Closure {
        if hidden == 0 {
            return self.same_frame(closure, inner);
        }
        let start = closure.frame as usize;
        let end = start + code.scope(closure.statement);
        let frame = if end == self.frames.len() {
            // The last frame can grow: others that begin there look no further.
            closure.frame
        } else {
            let copy = self.frames.len() as u32;
            self.frames.extend_from_within(start..end);
            copy
        };
        let fresh = self.fresh(hidden);
        self.frames.extend(fresh.map(Variable));
        self.next += u32::from(hidden);
        Closure {
            statement: inner,
            frame,
        }
    }

    /// Lets what is unused be dropped as soon as there can be any.
    pub fn tidy_often(&mut self) {
        (self.frames_full, self.frames_least) = (0, 0);
        self.locals.tidy_often();
        self.constraints.tidy_often();
    }

    /// Drops frames, locals and constraints that no goal uses, once they have
    /// piled up.
    pub fn tidy(&mut self, code: &Code) {
        if self.locals.is_full() {
            self.locals
                .tidy(self.ands.iter_mut().map(|and| &mut and.locals));
        }
        if self.constraints.is_full() {
            self.constraints
                .tidy(self.ands.iter_mut().map(|and| &mut and.store));
        }
        if self.frames.len() >= self.frames_full {
            self.tidy_frames(code);
        }
    }

    fn tidy_frames(&mut self, code: &Code) {
        let mut used: Vec<(u32, usize, Goal)> = Vec::new();
        for &goal in &self.order {
            if let Shape::Guarded(closure) | Shape::Member(closure) = self.shape(goal) {
                used.push((closure.frame, code.scope(closure.statement), goal));
            }
        }
        // Frames that begin together stay together; the longest comes first.
        used.sort_by_key(|&(frame, scope, _)| (frame, std::cmp::Reverse(scope)));
        let old = std::mem::take(&mut self.frames);
        let mut last = None;
        let mut moved = 0;
        for (frame, scope, goal) in used {
            if last != Some(frame) {
                last = Some(frame);
                moved = self.frames.len() as u32;
                let start = frame as usize;
                self.frames.extend_from_slice(&old[start..start + scope]);
            }
            let node = &mut self.nodes[usize::from(goal.0)];
            if let Shape::Guarded(closure) | Shape::Member(closure) = &mut node.shape {
                closure.frame = moved;
            }
        }
        self.frames_full = self.frames_least.max(2 * self.frames.len());
    }
}
