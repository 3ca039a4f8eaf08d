//! Statements as they are run: variables are levels, predicates are numbers.
//!
//! The variables in scope at a statement are counted from outside in: the
//! parameters (in a query its sixteen possible variables) are levels 0 and up,
//! each hidden list goes on counting. A statement in a configuration is a pair
//! of a statement and a frame, which says what variable each level stands for.

use crate::names::{Name, Names};
use std::collections::HashMap;

/// The operator of a choice.
#[derive(Clone, Copy, Debug, PartialEq, Eq, Hash)]
pub enum Operator {
    /// `?`
    Wait,
    /// `->`
    Condition,
    /// `|`
    Commit,
}

/// A variable as a statement sees it.
#[derive(Clone, Copy, Debug, PartialEq, Eq)]
pub struct Level(pub u16);

/// The number of a statement in `Code`.
#[derive(Clone, Copy, Debug, PartialEq, Eq, Hash)]
pub struct StatementId(pub u32);

/// The number of a definition.
#[derive(Clone, Copy, Debug, PartialEq, Eq)]
pub struct DefinitionId(pub u32);

/// A run of entries in one of the tables of `Code`.
#[derive(Clone, Copy, Debug, PartialEq, Eq)]
pub struct Run {
    pub start: u32,
    pub length: u32,
}

impl Run {
    pub fn range(self) -> std::ops::Range<usize> {
        self.start as usize..(self.start + self.length) as usize
    }
}

/// "A constraint atom has one of four kinds."
#[derive(Clone, Copy, Debug, PartialEq, Eq)]
pub enum ConstraintAtom {
    True,
    Fail,
    Same(Level, Level),
    /// variable = constructor; the arguments are in `Code::arguments`
    Built(Level, Name, Run),
}

/// A statement; `A, B, C` is `A, (B, C)`, and a plain bracket is what it holds.
#[derive(Clone, Copy, Debug, PartialEq, Eq)]
pub enum Statement {
    Constraint(ConstraintAtom),
    Call(DefinitionId, Run),
    Composition(StatementId, StatementId),
    /// How many variables are hidden, and in what.
    Hiding(u16, StatementId),
    /// The clauses are in `Code::clauses`.
    Choice(Operator, Run),
}

/// A clause: how many variables it hides, its guard and its body.
#[derive(Clone, Copy, Debug, PartialEq, Eq)]
pub struct Clause {
    pub hidden: u16,
    pub guard: StatementId,
    pub body: StatementId,
}

#[derive(Clone, Copy, Debug)]
struct Entry {
    statement: Statement,
    /// How many levels are in scope.
    scope: u32,
    /// Its parts, as document 01 counts them.
    parts: u32,
}

/// All statements of a program and a query, each after what it holds.
#[derive(Clone, Debug, Default)]
pub struct Code {
    entries: Vec<Entry>,
    pub clauses: Vec<Clause>,
    pub arguments: Vec<Level>,
}

impl Code {
    /// Adds a statement and counts its parts: "one for every .. clause,
    /// composition, hiding, choice statement, atom, .. and .. hidden variable".
    pub fn add(&mut self, statement: Statement, scope: u32) -> StatementId {
        let parts = match statement {
            Statement::Constraint(_) | Statement::Call(..) => 1,
            Statement::Composition(a, b) => 1 + self.parts(a) + self.parts(b),
            Statement::Hiding(hidden, inner) => 1 + u32::from(hidden) + self.parts(inner),
            Statement::Choice(_, clauses) => {
                let each =
                    |c: &Clause| 1 + u32::from(c.hidden) + self.parts(c.guard) + self.parts(c.body);
                1 + self.clauses[clauses.range()].iter().map(each).sum::<u32>()
            }
        };
        self.entries.push(Entry {
            statement,
            scope,
            parts,
        });
        StatementId(self.entries.len() as u32 - 1)
    }

    pub fn statement(&self, id: StatementId) -> Statement {
        self.entries[id.0 as usize].statement
    }

    pub fn scope(&self, id: StatementId) -> usize {
        self.entries[id.0 as usize].scope as usize
    }

    pub fn parts(&self, id: StatementId) -> u32 {
        self.entries[id.0 as usize].parts
    }
}

/// A program that was read: "zero or more definitions".
#[derive(Clone, Debug, Default)]
pub struct Program {
    pub names: Names,
    pub code: Code,
    /// The number of each defined name and arity.
    pub defined: HashMap<(Name, usize), DefinitionId>,
    /// The name of each definition.
    pub heads: Vec<Name>,
    /// The body of each definition; its levels begin with the parameters.
    pub bodies: Vec<StatementId>,
}

/// A query that was read, with the program it was read for.
#[derive(Clone, Debug)]
pub struct Query {
    pub program: Program,
    pub statement: StatementId,
    /// Its variables by first free occurrence.
    pub variables: Vec<Name>,
}
