//! Texts to statements: refusals 1 to 7, "lowest number first".

use crate::lexer;
use crate::limits::{PROGRAM_BYTES, QUERY_BYTES, QUERY_VARIABLES};
use crate::names::Name;
use crate::parser::{self, Concrete, Simple};
use crate::refusal::Refusal;
use crate::syntax::{
    Clause, Code, ConstraintAtom, DefinitionId, Level, Program, Query, Run, Statement, StatementId,
};
use std::collections::HashMap;

/// Reads a program text.
pub fn read_program(text: &[u8]) -> Result<Program, Refusal> {
    if text.len() > PROGRAM_BYTES {
        return Err(Refusal::TextTooLong);
    }
    let mut program = Program::default();
    let tokens = lexer::tokens(text, &mut program.names)?;
    let concrete = parser::program(&tokens)?;
    if concrete.counts_over {
        return Err(Refusal::Counts);
    }
    let mut twice = false;
    for (number, definition) in concrete.definitions.iter().enumerate() {
        let key = (definition.name, definition.parameters.length as usize);
        let id = DefinitionId(number as u32);
        twice |= program.defined.insert(key, id).is_some();
        program.heads.push(definition.name);
    }
    let mut resolver = Resolver {
        concrete: &concrete,
        defined: &program.defined,
        code: &mut program.code,
        levels: vec![None; program.names.len()],
        scope: 0,
        free: None,
        found: None,
    };
    if twice {
        resolver.note(Refusal::Twice);
    }
    for definition in &concrete.definitions {
        let outer = resolver.bind(definition.parameters);
        let body = resolver.statement(definition.body);
        resolver.unbind(definition.parameters, outer);
        program.bodies.push(body);
    }
    match resolver.found {
        Some(refusal) => Err(refusal),
        None => Ok(program),
    }
}

/// Reads a query text for a program.
pub fn read_query(program: &Program, text: &[u8]) -> Result<Query, Refusal> {
    read_query_for(program.clone(), text)
}

/// Reads a query text for a program, which becomes part of the result.
pub fn read_query_for(mut program: Program, text: &[u8]) -> Result<Query, Refusal> {
    if text.len() > QUERY_BYTES {
        return Err(Refusal::TextTooLong);
    }
    let tokens = lexer::tokens(text, &mut program.names)?;
    let (concrete, statement) = parser::query(&tokens)?;
    if concrete.counts_over {
        return Err(Refusal::Counts);
    }
    let mut resolver = Resolver {
        concrete: &concrete,
        defined: &program.defined,
        code: &mut program.code,
        levels: vec![None; program.names.len()],
        scope: QUERY_VARIABLES as u16,
        free: Some(Vec::new()),
        found: None,
    };
    let statement = resolver.statement(statement);
    match (resolver.found, resolver.free) {
        (Some(refusal), _) => Err(refusal),
        (None, variables) => Ok(Query {
            statement,
            variables: variables.unwrap_or_default(),
            program,
        }),
    }
}

/// Turns concrete syntax into statements and finds refusals 3 (of the query's
/// variables) to 7. It calls itself only from bracket to bracket, and their
/// depth was found to be within its limit before.
struct Resolver<'a> {
    concrete: &'a Concrete,
    defined: &'a HashMap<(Name, usize), DefinitionId>,
    code: &'a mut Code,
    /// What each spelling stands for here. "A hidden name covers an outer one
    /// of the same spelling."
    levels: Vec<Option<Level>>,
    /// How many levels are in scope.
    scope: u16,
    /// The query's variables so far; `None` in a program.
    free: Option<Vec<Name>>,
    /// The lowest refusal met.
    found: Option<Refusal>,
}

impl Resolver<'_> {
    fn note(&mut self, refusal: Refusal) {
        self.found = Some(self.found.map_or(refusal, |found| found.min(refusal)));
    }

    /// Brings a list of variables in scope; hands back what they covered.
    fn bind(&mut self, list: Run) -> Vec<Option<Level>> {
        let concrete = self.concrete;
        let first = self.scope;
        let mut covered = Vec::with_capacity(list.length as usize);
        for &name in &concrete.variables[list.range()] {
            let old = self.levels[name.0 as usize].replace(Level(self.scope));
            covered.push(old);
            self.scope += 1;
            if old.is_some_and(|level| level.0 >= first) {
                self.note(Refusal::Twice);
            }
        }
        covered
    }

    /// Takes the variables of a list out of scope again.
    fn unbind(&mut self, list: Run, covered: Vec<Option<Level>>) {
        let names = &self.concrete.variables[list.range()];
        for (name, old) in names.iter().zip(covered).rev() {
            self.levels[name.0 as usize] = old;
        }
        self.scope -= list.length as u16;
    }

    fn variable(&mut self, name: Name) -> Level {
        if let Some(level) = self.levels[name.0 as usize] {
            return level;
        }
        let Some(free) = &mut self.free else {
            self.note(Refusal::FreeVariable);
            return Level(0);
        };
        // "by first free occurrence"
        let number = free.len();
        free.push(name);
        if number >= QUERY_VARIABLES {
            self.note(Refusal::Counts);
        }
        let level = Level(number as u16);
        self.levels[name.0 as usize] = Some(level);
        level
    }

    fn arguments(&mut self, list: Run) -> Run {
        let start = self.code.arguments.len() as u32;
        for index in list.range() {
            let level = self.variable(self.concrete.variables[index]);
            self.code.arguments.push(level);
        }
        Run {
            start,
            length: list.length,
        }
    }

    /// "A, B, C reads as A, (B, C)."
    fn statement(&mut self, simples: Run) -> StatementId {
        let ids: Vec<_> = simples.range().map(|at| self.simple(at)).collect();
        let join = |right, left| {
            let both = Statement::Composition(left, right);
            self.code.add(both, self.scope.into())
        };
        ids.into_iter().rev().reduce(join).expect("one or more")
    }

    fn simple(&mut self, at: usize) -> StatementId {
        let statement = match self.concrete.simples[at] {
            Simple::True => Statement::Constraint(ConstraintAtom::True),
            Simple::Fail => Statement::Constraint(ConstraintAtom::Fail),
            Simple::Same(left, right) => {
                let left = self.variable(left);
                let right = self.variable(right);
                Statement::Constraint(ConstraintAtom::Same(left, right))
            }
            Simple::Built(left, name, list) => {
                let left = self.variable(left);
                let list = self.arguments(list);
                Statement::Constraint(ConstraintAtom::Built(left, name, list))
            }
            Simple::Atom(name, list) => {
                let key = (name, list.length as usize);
                let list = self.arguments(list);
                let definition = self.defined.get(&key).copied();
                if definition.is_none() {
                    self.note(Refusal::NoDefinition);
                }
                Statement::Call(definition.unwrap_or(DefinitionId(0)), list)
            }
            // "`(S)`, which reads as S"
            Simple::Plain(inner) => return self.statement(inner),
            Simple::Hiding(hidden, inner) => {
                let covered = self.bind(hidden);
                let inner = self.statement(inner);
                self.unbind(hidden, covered);
                Statement::Hiding(hidden.length as u16, inner)
            }
            Simple::Choice(clauses) => self.choice(clauses),
        };
        self.code.add(statement, self.scope.into())
    }

    fn choice(&mut self, clauses: Run) -> Statement {
        let concrete = self.concrete;
        let written = &concrete.clauses[clauses.range()];
        let operator = written[0].operator;
        if written.iter().any(|clause| clause.operator != operator) {
            self.note(Refusal::TwoOperators);
        }
        let mut read = Vec::with_capacity(written.len());
        for clause in written {
            let covered = self.bind(clause.hidden);
            let guard = self.statement(clause.guard);
            let body = self.statement(clause.body);
            self.unbind(clause.hidden, covered);
            read.push(Clause {
                hidden: clause.hidden.length as u16,
                guard,
                body,
            });
        }
        let start = self.code.clauses.len() as u32;
        self.code.clauses.extend(read);
        let length = clauses.length;
        Statement::Choice(operator, Run { start, length })
    }
}
