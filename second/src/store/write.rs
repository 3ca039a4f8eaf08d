//! A run as a store: the table of names, program, query variables,
//! configuration and next number, as numbers and words.

use super::form::Raw;
use crate::checker::Checker;
use crate::config::{Constraint, Goal, Shape, Variable};
use crate::layout::Trie;
use crate::names::Name;
use crate::syntax::Query;
use crate::words::*;
use std::collections::HashMap;

/// The table that the start makes, the root first.
pub fn start_table(query: &Query) -> Vec<u32> {
    let (trie, _) = Trie::of_query(query);
    let cells = trie.nodes.iter().map(|&(parent, byte)| cell(parent, byte));
    std::iter::once(0).chain(cells).collect()
}

fn cell(parent: u32, byte: u8) -> u32 {
    parent * 256 + u32::from(byte)
}

/// The store of a run, names numbered by a table that has all of them.
pub fn raw(checker: &Checker, cells: &[u32]) -> Raw {
    let query = &checker.query;
    let program = &query.program;
    let nodes: HashMap<u32, u32> = cells.iter().copied().zip(0..).skip(1).collect();
    let node = |name: u32| {
        let spelling = program.names.spelling(Name(name)).iter();
        spelling.fold(0, |parent, &byte| nodes[&cell(parent, byte)])
    };
    let names: Vec<u32> = (0..program.names.len() as u32).map(node).collect();
    let mut rules = Writer::new(program, &names);
    rules.definitions(&arities(program));
    let mut goals = Goals {
        checker,
        writer: Writer::new(program, &names),
    };
    goals.all();
    let variables = query.variables.iter().map(|name| names[name.0 as usize]);
    Raw {
        cells: cells.to_vec(),
        program: rules.out,
        variables: variables.collect(),
        config: goals.writer.out,
        next: checker.config.next,
    }
}

/// Writes a configuration.
struct Goals<'a> {
    checker: &'a Checker,
    writer: Writer<'a>,
}

impl Goals<'_> {
    /// Goals in the order of places; a goal is closed behind its last child.
    fn all(&mut self) {
        let config = &self.checker.config;
        let mut open: Vec<(Goal, usize)> = Vec::new();
        for &goal in &config.order {
            self.open(goal);
            open.push((goal, config.children(goal)));
            while let Some(&(done, 0)) = open.last() {
                self.close(done);
                open.pop();
                if let Some((_, left)) = open.last_mut() {
                    *left -= 1;
                }
            }
        }
    }

    fn open(&mut self, goal: Goal) {
        let config = &self.checker.config;
        let word = match config.shape(goal) {
            Shape::Or => OR,
            Shape::And(_) => AND,
            Shape::Choice(operator) => choice_box(operator),
            Shape::Guarded(_) => GUARDED,
            Shape::Member(_) => MEMBER,
        };
        self.writer.out.push(word);
        let Shape::And(id) = config.shape(goal) else {
            return;
        };
        self.writer.out.push(LOCALS);
        let mut locals: Vec<Variable> = config.locals_of(id).copied().collect();
        locals.reverse();
        self.free(&locals);
        self.writer.out.extend([END, STORE]);
        let mut store: Vec<&Constraint> = config.store_of(id).collect();
        store.reverse();
        for constraint in store {
            self.constraint(constraint);
        }
        self.writer.out.push(END);
    }

    fn free(&mut self, list: &[Variable]) {
        for variable in list {
            self.writer.put(FREE, variable.0);
        }
    }

    fn constraint(&mut self, constraint: &Constraint) {
        match constraint {
            Constraint::Fail => self.writer.out.push(FAIL),
            Constraint::Same(left, right) => {
                self.writer.out.push(EQ);
                self.free(&[*left, *right]);
            }
            Constraint::Built(left, name, arguments) => {
                self.writer.out.push(APP);
                self.free(&[*left]);
                self.writer.name(*name);
                self.free(arguments.as_slice());
            }
        }
        self.writer.out.push(END);
    }

    /// The statement of a member or the body of a guarded goal, and the end.
    fn close(&mut self, goal: Goal) {
        let checker = self.checker;
        if let Shape::Member(closure) | Shape::Guarded(closure) = checker.config.shape(goal) {
            let frame = checker.config.frame(&checker.query.program.code, closure);
            self.writer.statement(closure.statement, frame);
        }
        self.writer.out.push(END);
    }
}
