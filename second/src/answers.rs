//! Answers, their texts, and the state.

use crate::checker::Checker;
use crate::config::{Goal, Shape, Variable};
use crate::refusal::Refusal;
use crate::solver::Solver;
use std::collections::HashMap;

/// The state of a configuration.
#[derive(Clone, Copy, Debug, PartialEq, Eq)]
pub enum State {
    Failed,
    Final,
    Open,
}

impl Checker {
    /// "An answer is a solved and-box, satisfiable, in the top or-box or in
    /// or-boxes nested in it, left to right."
    pub fn answer_boxes(&mut self) -> Vec<Goal> {
        let mut found = Vec::new();
        let mut at = 0;
        while at < self.config.places() {
            let goal = self.config.order[at];
            match self.config.shape(goal) {
                Shape::Or => at += 1,
                _ => {
                    if self.is_answer(goal) {
                        found.push(goal);
                    }
                    at = self.config.end(at);
                }
            }
        }
        found
    }

    fn is_answer(&mut self, goal: Goal) -> bool {
        self.config.solved(goal).is_some() && self.environment.load(&self.config, Some(goal))
    }

    /// "`failed` when the top or-box is empty, `final` when every member is an
    /// answer, else `open`"
    pub fn state(&mut self) -> State {
        let mut next = self.config.first(self.config.top());
        if next.is_none() {
            return State::Failed;
        }
        while let Some(goal) = next {
            if !self.is_answer(goal) {
                return State::Open;
            }
            next = self.config.after(goal);
        }
        State::Final
    }

    /// The text of answer `number`, counted from 1, if it fits into `room`
    /// bytes: else refusals 16 and 17.
    pub fn answer(&mut self, number: usize, room: usize) -> Result<Vec<u8>, Refusal> {
        let boxes = self.answer_boxes();
        let index = number.checked_sub(1).ok_or(Refusal::NoAnswer)?;
        let &goal = boxes.get(index).ok_or(Refusal::NoAnswer)?;
        self.answer_text(goal, room)
    }

    /// The text of an answer's and-box.
    pub fn answer_text(&mut self, goal: Goal, room: usize) -> Result<Vec<u8>, Refusal> {
        self.environment.load(&self.config, Some(goal));
        let names = &self.query.program.names;
        let variables = &self.query.variables;
        if variables.is_empty() {
            return Some(b"true".to_vec())
                .filter(|text| text.len() <= room)
                .ok_or(Refusal::AnswerTooLong);
        }
        let spelling = |name| names.spelling(name);
        let mut writer = Writer {
            solver: &self.environment.solver,
            spelling: &spelling,
            known: HashMap::new(),
            unbound: 0,
        };
        // Lengths first: a text can be exponentially longer than its store.
        let mut length: usize = 2 * (variables.len() - 1);
        for (number, &name) in variables.iter().enumerate() {
            let term = writer.measure(Variable(number as u16));
            let line = names.spelling(name).len() + 3;
            length = length.saturating_add(line).saturating_add(term);
        }
        if length > room {
            return Err(Refusal::AnswerTooLong);
        }
        let mut text = Vec::with_capacity(length);
        for (number, &name) in variables.iter().enumerate() {
            if number > 0 {
                text.extend_from_slice(b", ");
            }
            text.extend_from_slice(names.spelling(name));
            text.extend_from_slice(b" = ");
            writer.write(Variable(number as u16), &mut text);
        }
        debug_assert_eq!(text.len(), length);
        Ok(text)
    }
}

/// What is known of a class.
#[derive(Clone, Copy)]
struct Known {
    /// The length of its text, saturating.
    length: usize,
    /// Its number if it is unbound.
    unbound: Option<usize>,
}

struct Writer<'a> {
    solver: &'a Solver,
    spelling: &'a dyn Fn(crate::names::Name) -> &'a [u8],
    known: HashMap<Variable, Known>,
    unbound: usize,
}

impl Writer<'_> {
    /// The length of a variable's text. Each class is visited once, arguments
    /// first and left to right, so unbound ones get their numbers "by first
    /// appearance".
    fn measure(&mut self, variable: Variable) -> usize {
        let whole = self.solver.class(variable);
        let mut open = vec![(whole, 0)];
        while let Some((class, next)) = open.pop() {
            if self.known.contains_key(&class) {
                continue;
            }
            let (label, arguments) = match self.solver.term(class) {
                None => {
                    let number = self.unbound;
                    self.unbound += 1;
                    let length = 1 + number.to_string().len();
                    let unbound = Some(number);
                    self.known.insert(class, Known { length, unbound });
                    continue;
                }
                Some(term) => term,
            };
            if let Some(&argument) = arguments.get(next) {
                open.push((class, next + 1));
                open.push((self.solver.class(argument), 0));
                continue;
            }
            let mut length = (self.spelling)(label).len();
            for &argument in arguments {
                let inner = self.known[&self.solver.class(argument)].length;
                length = length.saturating_add(inner).saturating_add(1);
            }
            if !arguments.is_empty() {
                length = length.saturating_add(1);
            }
            let unbound = None;
            self.known.insert(class, Known { length, unbound });
        }
        self.known[&whole].length
    }

    /// Writes a variable's text, which was measured and fits.
    fn write(&self, variable: Variable, text: &mut Vec<u8>) {
        enum Piece {
            Term(Variable),
            Mark(u8),
        }
        let mut due = vec![Piece::Term(variable)];
        while let Some(piece) = due.pop() {
            let class = match piece {
                Piece::Mark(byte) => {
                    text.push(byte);
                    continue;
                }
                Piece::Term(variable) => self.solver.class(variable),
            };
            if let Some(number) = self.known[&class].unbound {
                text.extend_from_slice(format!("_{number}").as_bytes());
            }
            let Some((label, arguments)) = self.solver.term(class) else {
                continue;
            };
            text.extend_from_slice((self.spelling)(label));
            for (index, &argument) in arguments.iter().enumerate().rev() {
                let last = index + 1 == arguments.len();
                due.push(Piece::Mark(if last { b')' } else { b',' }));
                due.push(Piece::Term(argument));
            }
            if !arguments.is_empty() {
                due.push(Piece::Mark(b'('));
            }
        }
    }
}
