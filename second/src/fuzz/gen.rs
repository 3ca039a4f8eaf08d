//! Random programs and queries: all statement forms, all three operators, deep
//! guards, recursion, shared and hidden variables, covered names.

use crate::oracle::text::{Clause, Def, Stmt, Var};
use crate::random::Random;
use std::rc::Rc;

/// Few names, so that hidden ones often cover outer ones.
const VARIABLES: [&str; 5] = ["X", "Y", "Z", "K", "V1"];
const LABELS: [(&str, usize); 9] = [
    ("a", 0),
    ("b", 0),
    ("12", 0),
    ("f", 1),
    ("f", 2),
    ("g", 1),
    ("pair", 2),
    ("true", 0),
    ("a", 1),
];
const PREDICATES: [&str; 4] = ["p", "q", "r", "amend"];

/// A random program and query, as texts.
pub fn texts(random: &mut Random) -> (String, String) {
    let mut heads: Vec<(Rc<str>, usize)> = Vec::new();
    for _ in 0..random.weighted(&[1, 3, 4, 2]) {
        let name: Rc<str> = (*random.pick(&PREDICATES)).into();
        let arity = random.weighted(&[2, 5, 4, 2, 1]);
        if !heads.contains(&(name.clone(), arity)) {
            heads.push((name, arity));
        }
    }
    let mut generator = Generator { random, heads };
    let mut rules = String::new();
    for (name, arity) in generator.heads.clone() {
        let parameters = generator.names(arity);
        let depth = generator.random.between(1, 5);
        let body = generator.statement(depth, &parameters);
        let def = Def {
            name,
            parameters,
            body,
        };
        generator.write_definition(&def, &mut rules);
    }
    let count = generator.random.weighted(&[1, 4, 4, 2]);
    let variables = generator.names(count);
    let depth = generator.random.between(1, 5);
    let statement = generator.statement(depth, &variables);
    let mut query = String::new();
    generator.write_statement(&statement, &mut query);
    generator.write(".", &mut query);
    (rules, query)
}

struct Generator<'a> {
    random: &'a mut Random,
    heads: Vec<(Rc<str>, usize)>,
}

impl Generator<'_> {
    /// Different names of variables.
    fn names(&mut self, count: usize) -> Vec<Rc<str>> {
        let mut left: Vec<&str> = VARIABLES.to_vec();
        let mut take = || left.remove(self.random.below(left.len())).into();
        (0..count).map(|_| take()).collect()
    }

    fn variable(&mut self, scope: &[Rc<str>]) -> Var {
        // The innermost are the likeliest.
        let recent = scope.len().saturating_sub(3);
        let from = if self.random.once_in(3) { 0 } else { recent };
        Var::Name(self.random.pick(&scope[from..]).clone())
    }

    fn variables(&mut self, count: usize, scope: &[Rc<str>]) -> Vec<Var> {
        (0..count).map(|_| self.variable(scope)).collect()
    }

    fn statement(&mut self, depth: usize, scope: &[Rc<str>]) -> Stmt {
        let deeper = usize::from(depth > 0);
        let weights = [2, 2, 4 * deeper, 2 * deeper, 5 * deeper];
        match self.random.weighted(&weights) {
            0 => self.constraint(scope),
            1 => self.call(scope),
            2 => {
                let left = self.statement(depth - 1, scope);
                let right = self.statement(depth - 1, scope);
                Stmt::Comp(Box::new(left), Box::new(right))
            }
            3 => {
                let (hidden, inner) = self.hidden(1, scope);
                Stmt::Hide(hidden, Box::new(self.statement(depth - 1, &inner)))
            }
            _ => self.choice(depth, scope),
        }
    }

    /// A hidden list of at least so many names, and the scope inside it.
    fn hidden(&mut self, least: usize, scope: &[Rc<str>]) -> (Vec<Rc<str>>, Vec<Rc<str>>) {
        let count = least + self.random.weighted(&[4, 2, 1]);
        let hidden = self.names(count);
        let inner = [scope, &hidden].concat();
        (hidden, inner)
    }

    fn constraint(&mut self, scope: &[Rc<str>]) -> Stmt {
        let some = usize::from(!scope.is_empty());
        match self.random.weighted(&[3, 1, 5 * some, 9 * some]) {
            0 => Stmt::True,
            1 => Stmt::Fail,
            2 => Stmt::Same(self.variable(scope), self.variable(scope)),
            _ => {
                let (label, arity) = *self.random.pick(&LABELS);
                let left = self.variable(scope);
                Stmt::Built(left, label.into(), self.variables(arity, scope))
            }
        }
    }

    fn call(&mut self, scope: &[Rc<str>]) -> Stmt {
        let fits = |head: &&(Rc<str>, usize)| head.1 == 0 || !scope.is_empty();
        let heads: Vec<_> = self.heads.iter().filter(fits).cloned().collect();
        if heads.is_empty() {
            return self.constraint(scope);
        }
        let (name, arity) = self.random.pick(&heads).clone();
        Stmt::Call(name, self.variables(arity, scope))
    }

    fn choice(&mut self, depth: usize, scope: &[Rc<str>]) -> Stmt {
        let operator = ["?", "->", "|"][self.random.weighted(&[4, 2, 2])];
        let count = self.random.weighted(&[0, 2, 6, 3, 1]);
        let mut clauses = Vec::new();
        for _ in 0..count {
            let (mut hidden, mut inner) = self.hidden(0, scope);
            if self.random.once_in(2) {
                (hidden, inner) = (vec![], scope.to_vec());
            }
            clauses.push(Clause {
                guard: self.guard(depth - 1, &inner),
                body: self.statement(depth.saturating_sub(2), &inner),
                hidden,
                operator,
            });
        }
        Stmt::Choice(clauses)
    }

    /// A guard: mostly a constraint, at times a choice of constraints, which
    /// splits and is then distributed, or anything.
    fn guard(&mut self, depth: usize, scope: &[Rc<str>]) -> Stmt {
        match self.random.weighted(&[6, 2, 2]) {
            0 => self.constraint(scope),
            1 => {
                let clause = |generator: &mut Self| Clause {
                    hidden: vec![],
                    guard: generator.constraint(scope),
                    operator: "?",
                    body: Stmt::True,
                };
                Stmt::Choice(vec![clause(self), clause(self)])
            }
            _ => self.statement(depth, scope),
        }
    }

    // Writing.

    /// A token, with random blanks after it.
    fn write(&mut self, token: &str, text: &mut String) {
        text.push_str(token);
        for _ in 0..self.random.weighted(&[6, 6, 1]) {
            text.push_str(["", " ", "\t", "\n"][self.random.weighted(&[0, 8, 1, 1])]);
        }
    }

    fn write_list(&mut self, list: &[Rc<str>], text: &mut String) {
        for (index, name) in list.iter().enumerate() {
            if index > 0 {
                self.write(",", text);
            }
            self.write(name, text);
        }
    }

    fn write_arguments(&mut self, list: &[Rc<str>], text: &mut String) {
        if !list.is_empty() {
            self.write("(", text);
            self.write_list(list, text);
            self.write(")", text);
        }
    }

    fn write_definition(&mut self, def: &Def, text: &mut String) {
        self.write(&def.name, text);
        self.write_arguments(&def.parameters, text);
        self.write(":=", text);
        self.write_statement(&def.body, text);
        self.write(".", text);
    }

    /// A simple statement: what is none gets a bracket, others at times.
    fn write_simple(&mut self, statement: &Stmt, text: &mut String) {
        let must = matches!(statement, Stmt::Comp(..));
        if must || self.random.once_in(12) {
            self.write("(", text);
            self.write_statement(statement, text);
            self.write(")", text);
        } else {
            self.write_statement(statement, text);
        }
    }

    fn write_statement(&mut self, statement: &Stmt, text: &mut String) {
        match statement {
            Stmt::True => self.write("true", text),
            Stmt::Fail => self.write("fail", text),
            Stmt::Same(x, y) => {
                self.write(&name(x), text);
                self.write("=", text);
                self.write(&name(y), text);
            }
            Stmt::Built(x, label, list) => {
                self.write(&name(x), text);
                self.write("=", text);
                self.write(label, text);
                self.write_arguments(&list.iter().map(name).collect::<Vec<_>>(), text);
            }
            Stmt::Call(predicate, list) => {
                self.write(predicate, text);
                self.write_arguments(&list.iter().map(name).collect::<Vec<_>>(), text);
            }
            Stmt::Comp(a, b) => {
                self.write_simple(a, text);
                self.write(",", text);
                if self.random.once_in(12) {
                    self.write_simple(b, text);
                } else {
                    self.write_statement(b, text);
                }
            }
            Stmt::Hide(hidden, inner) => {
                self.write("(", text);
                self.write_list(hidden, text);
                self.write(":", text);
                self.write_statement(inner, text);
                self.write(")", text);
            }
            Stmt::Choice(clauses) => {
                for (index, clause) in clauses.iter().enumerate() {
                    self.write(if index == 0 { "(" } else { ";" }, text);
                    if !clause.hidden.is_empty() {
                        self.write_list(&clause.hidden, text);
                        self.write(":", text);
                    }
                    self.write_statement(&clause.guard, text);
                    self.write(clause.operator, text);
                    self.write_statement(&clause.body, text);
                }
                self.write(")", text);
            }
        }
    }
}

fn name(var: &Var) -> Rc<str> {
    match var {
        Var::Name(name) => name.clone(),
        Var::Number(_) => unreachable!("texts have names"),
    }
}
