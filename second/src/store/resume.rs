//! A well-formed store as a run that can go on.

use super::formed::{body, locals};
use super::spelling::spelling;
use super::tree::{choice, Tree};
use super::State;
use crate::checker::Checker;
use crate::config::{Arguments, Closure, Config, Constraint, Goal, Shape, Variable};
use crate::limits::Limits;
use crate::names::Name;
use crate::syntax::{
    Clause, ConstraintAtom, DefinitionId, Level, Operator, Program, Query, Run, Statement,
    StatementId,
};
use crate::words::*;

impl State {
    /// The run that stands as the store says.
    pub fn checker(&self) -> Checker {
        let mut builder = Builder {
            cells: &self.raw.cells,
            program: Program::default(),
            bound: Vec::new(),
            ids: Vec::new(),
        };
        for (number, definition) in self.definitions.iter().enumerate() {
            let name = builder.name(definition.name.into());
            let key = (name, usize::from(definition.parameters));
            builder
                .program
                .defined
                .insert(key, DefinitionId(number as u32));
            builder.program.heads.push(name);
        }
        for definition in &self.definitions {
            let parameters = definition.parameters.into();
            let body = builder.statement(&self.rules, definition.body, &[], parameters);
            builder.program.bodies.push(body);
        }
        let variables = self.raw.variables.iter();
        let variables = variables.map(|&node| builder.name(node)).collect();
        let config = builder.config(self);
        let mut program = builder.program;
        let nothing = Statement::Constraint(ConstraintAtom::True);
        // The query's statement is where the run began; it is not kept.
        let statement = program.code.add(nothing, 0);
        let query = Query {
            program,
            statement,
            variables,
        };
        Checker {
            query,
            config,
            limits: Limits::PUBLISHED,
            environment: Default::default(),
        }
    }
}

struct Builder<'a> {
    cells: &'a [u32],
    program: Program,
    /// For each bracket of a statement: how many levels are in scope inside it,
    /// and its statement.
    bound: Vec<u32>,
    ids: Vec<StatementId>,
}

impl Builder<'_> {
    fn name(&mut self, node: u32) -> Name {
        self.program.names.number(&spelling(self.cells, node))
    }

    /// A statement whose lowest levels are `free`, the next ones `parameters`
    /// in number.
    fn statement(
        &mut self,
        tree: &Tree,
        root: usize,
        free: &[u16],
        parameters: u32,
    ) -> StatementId {
        self.bound.resize(tree.nodes.len(), 0);
        self.ids.resize(tree.nodes.len(), StatementId(0));
        let outside = free.len() as u32 + parameters;
        let around = |bound: &[u32], node: usize| match node {
            _ if node == root => outside,
            _ => bound[tree.parent(node)],
        };
        for node in root..tree.end(root) {
            let hidden = match tree.open(node) {
                HIDE | CLAUSE => u32::from(tree.own(node)[0].value),
                _ => 0,
            };
            self.bound[node] = around(&self.bound, node) + hidden;
        }
        // What a statement holds comes before it.
        for node in (root..tree.end(root)).rev() {
            if tree.open(node) != CLAUSE {
                let statement = self.simple(tree, node, free);
                let scope = around(&self.bound, node);
                self.ids[node] = self.program.code.add(statement, scope);
            }
        }
        self.ids[root]
    }

    fn simple(&mut self, tree: &Tree, node: usize, free: &[u16]) -> Statement {
        let own = tree.own(node);
        let level = |word: &Word| match word.class {
            FREE => Level(free.binary_search(&word.value).expect("listed") as u16),
            _ => Level(word.value + free.len() as u16),
        };
        match tree.open(node) {
            TRUE => Statement::Constraint(ConstraintAtom::True),
            FAIL => Statement::Constraint(ConstraintAtom::Fail),
            EQ => Statement::Constraint(ConstraintAtom::Same(level(&own[0]), level(&own[1]))),
            APP => {
                let name = self.name(own[1].value.into());
                let list = self.arguments(own[2..].iter().map(level));
                Statement::Constraint(ConstraintAtom::Built(level(&own[0]), name, list))
            }
            CALL => {
                let name = self.name(own[0].value.into());
                let definition = self.program.defined[&(name, own.len() - 1)];
                Statement::Call(definition, self.arguments(own[1..].iter().map(level)))
            }
            COMP => Statement::Composition(self.ids[node + 1], self.ids[tree.end(node + 1)]),
            HIDE => Statement::Hiding(own[0].value, self.ids[node + 1]),
            open => {
                assert!(choice(open), "a statement");
                let start = self.program.code.clauses.len() as u32;
                for clause in tree.children(node) {
                    self.program.code.clauses.push(Clause {
                        hidden: tree.own(clause)[0].value,
                        guard: self.ids[clause + 1],
                        body: self.ids[tree.end(clause + 1)],
                    });
                }
                let length = self.program.code.clauses.len() as u32 - start;
                Statement::Choice(operator(open), Run { start, length })
            }
        }
    }

    fn arguments(&mut self, list: impl Iterator<Item = Level>) -> Run {
        let all = &mut self.program.code.arguments;
        let start = all.len() as u32;
        all.extend(list);
        let length = all.len() as u32 - start;
        Run { start, length }
    }

    fn config(&mut self, state: &State) -> Config {
        let tree = &state.goals;
        let mut config = Config::empty(state.raw.next);
        let mut around: Vec<(usize, Goal)> = Vec::new();
        for node in 0..tree.nodes.len() {
            if tree.open(node).class != PLACE {
                continue;
            }
            while around
                .last()
                .is_some_and(|&(outer, _)| tree.end(outer) <= node)
            {
                around.pop();
            }
            let shape = match tree.open(node) {
                OR => Shape::Or,
                AND => {
                    let id = config.new_and();
                    for local in locals(tree, node) {
                        config.add_locals(id, local..local + 1);
                    }
                    for stored in tree.children(tree.end(node + 1)) {
                        let constraint = self.constraint(tree, stored);
                        config.add_constraint(id, constraint);
                    }
                    Shape::And(id)
                }
                MEMBER => Shape::Member(self.closure(tree, node + 1, &mut config)),
                GUARDED => Shape::Guarded(self.closure(tree, body(tree, node), &mut config)),
                open => Shape::Choice(operator(open)),
            };
            let goal = config.new_goal(shape);
            if let Some(&(_, outer)) = around.last() {
                config.append(outer, goal);
            }
            around.push((node, goal));
            config.order.push(goal);
        }
        config.count_parts(&self.program.code);
        config
    }

    fn closure(&mut self, tree: &Tree, root: usize, config: &mut Config) -> Closure {
        let words = tree.words[tree.span(root)].iter();
        let free = words.filter(|word| word.class == FREE);
        let mut free: Vec<u16> = free.map(|word| word.value).collect();
        free.sort_unstable();
        free.dedup();
        let statement = self.statement(tree, root, &free, 0);
        config.closure(statement, free.into_iter().map(Variable))
    }

    fn constraint(&mut self, tree: &Tree, node: usize) -> Constraint {
        let own = tree.own(node);
        let variable = |word: &Word| Variable(word.value);
        match tree.open(node) {
            EQ => Constraint::Same(variable(&own[0]), variable(&own[1])),
            APP => {
                let name = self.name(own[1].value.into());
                let list: Vec<Variable> = own[2..].iter().map(variable).collect();
                Constraint::Built(variable(&own[0]), name, Arguments::new(&list))
            }
            _ => Constraint::Fail,
        }
    }
}

/// The operator of a choice or of a choice-box.
fn operator(open: Word) -> Operator {
    match open {
        WAIT | ASK_WAIT => Operator::Wait,
        COND | ASK_COND => Operator::Condition,
        _ => Operator::Commit,
    }
}
