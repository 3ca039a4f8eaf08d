//! One written form of a configuration, from the fast and from the slow model.
//! Bound variables are written by their level, so that names do not matter.

use super::logic::Con;
use super::model::Goal as Slow;
use super::text::{Stmt, Var};
use crate::checker::Checker;
use crate::config::{Closure, Constraint, Goal, Place, Shape};
use crate::names::Name;
use crate::syntax::{ConstraintAtom, Level, Operator, Run, Statement, StatementId};
use std::fmt::Write;
use std::rc::Rc;

fn sign(operator: Operator) -> &'static str {
    match operator {
        Operator::Wait => "?",
        Operator::Condition => "->",
        Operator::Commit => "|",
    }
}

/// The written form of a checker's configuration. The goals are visited by
/// their links; a goal whose place is another says so.
pub fn fast(checker: &Checker) -> String {
    let mut writer = Fast {
        checker,
        text: String::new(),
        place: 0,
    };
    writer.goal(checker.config.top());
    if writer.place as usize != checker.config.places() {
        writer.text.push_str(" places left over");
    }
    writer.text
}

struct Fast<'a> {
    checker: &'a Checker,
    text: String,
    place: u32,
}

impl Fast<'_> {
    fn goal(&mut self, goal: Goal) {
        let config = &self.checker.config;
        if config.at(Place(self.place)) != Some(goal) {
            self.text.push_str(" misplaced ");
        }
        self.place += 1;
        match config.shape(goal) {
            Shape::Or => self.text.push_str("or"),
            Shape::And(id) => {
                self.text.push_str("and{");
                let locals: Vec<_> = config.locals_of(id).collect();
                for local in locals.iter().rev() {
                    let _ = write!(self.text, "{} ", local.0);
                }
                self.text.push('|');
                let store: Vec<_> = config.store_of(id).collect();
                for constraint in store.iter().rev() {
                    self.constraint(constraint);
                }
                self.text.push('}');
            }
            Shape::Choice(operator) => self.text.push_str(sign(operator)),
            Shape::Guarded(body) => {
                self.text.push_str("guarded ");
                self.statement(body, body.statement);
            }
            Shape::Member(closure) => self.statement(closure, closure.statement),
        }
        self.text.push('[');
        let mut next = config.first(goal);
        while let Some(child) = next {
            self.goal(child);
            next = config.after(child);
        }
        self.text.push(']');
    }

    fn name(&mut self, name: Name) {
        let spelling = self.checker.query.program.names.spelling(name);
        self.text.push_str(&String::from_utf8_lossy(spelling));
    }

    fn constraint(&mut self, constraint: &Constraint) {
        match constraint {
            Constraint::Fail => self.text.push_str("fail "),
            Constraint::Same(x, y) => {
                let _ = write!(self.text, "{}={} ", x.0, y.0);
            }
            Constraint::Built(x, label, list) => {
                let _ = write!(self.text, "{}=", x.0);
                self.name(*label);
                for argument in list.as_slice() {
                    let _ = write!(self.text, ",{}", argument.0);
                }
                self.text.push(' ');
            }
        }
    }

    fn level(&mut self, closure: Closure, level: Level) {
        let scope = self.checker.query.program.code.scope(closure.statement);
        let config = &self.checker.config;
        let _ = match usize::from(level.0).checked_sub(scope) {
            Some(bound) => write!(self.text, "#{bound}"),
            None => write!(self.text, "{}", config.variable(closure, level).0),
        };
    }

    fn levels(&mut self, closure: Closure, list: Run) {
        let checker = self.checker;
        for &level in &checker.query.program.code.arguments[list.range()] {
            self.text.push(',');
            self.level(closure, level);
        }
    }

    fn statement(&mut self, closure: Closure, id: StatementId) {
        let checker = self.checker;
        let code = &checker.query.program.code;
        match code.statement(id) {
            Statement::Constraint(ConstraintAtom::True) => self.text.push_str("true"),
            Statement::Constraint(ConstraintAtom::Fail) => self.text.push_str("fail"),
            Statement::Constraint(ConstraintAtom::Same(x, y)) => {
                self.level(closure, x);
                self.text.push('=');
                self.level(closure, y);
            }
            Statement::Constraint(ConstraintAtom::Built(x, label, list)) => {
                self.level(closure, x);
                self.text.push('=');
                self.name(label);
                self.levels(closure, list);
            }
            Statement::Call(definition, list) => {
                let name = checker.query.program.heads[definition.0 as usize];
                self.name(name);
                self.levels(closure, list);
            }
            Statement::Composition(a, b) => {
                self.text.push('(');
                self.statement(closure, a);
                self.text.push(';');
                self.statement(closure, b);
                self.text.push(')');
            }
            Statement::Hiding(hidden, inner) => {
                let _ = write!(self.text, "(hide {hidden}:");
                self.statement(closure, inner);
                self.text.push(')');
            }
            Statement::Choice(operator, clauses) => {
                self.text.push_str("(choice");
                for clause in &code.clauses[clauses.range()] {
                    let _ = write!(self.text, " {}:", clause.hidden);
                    self.statement(closure, clause.guard);
                    self.text.push_str(sign(operator));
                    self.statement(closure, clause.body);
                }
                self.text.push(')');
            }
        }
    }
}

/// The written form of a configuration of the slow model.
pub fn slow(goal: &Slow) -> String {
    let mut text = String::new();
    slow_goal(goal, &mut text);
    text
}

fn slow_goal(goal: &Slow, text: &mut String) {
    match goal {
        Slow::Or(_) => text.push_str("or"),
        Slow::And(locals, store, _) => {
            text.push_str("and{");
            for local in locals {
                let _ = write!(text, "{local} ");
            }
            text.push('|');
            for con in store {
                let _ = match con {
                    Con::Fail => write!(text, "fail"),
                    Con::Same(x, y) => write!(text, "{x}={y}"),
                    Con::Built(x, label, list) => {
                        let list: String = list.iter().map(|v| format!(",{v}")).collect();
                        write!(text, "{x}={label}{list}")
                    }
                };
                text.push(' ');
            }
            text.push('}');
        }
        Slow::Choice(operator, _) => text.push_str(operator),
        Slow::Guarded(_, body) => {
            text.push_str("guarded ");
            slow_statement(body, &mut Vec::new(), text);
        }
        Slow::Member(statement) => slow_statement(statement, &mut Vec::new(), text),
    }
    text.push('[');
    for child in goal.children() {
        slow_goal(child, text);
    }
    text.push(']');
}

fn slow_var(var: &Var, bound: &[Rc<str>], text: &mut String) {
    let _ = match var {
        Var::Number(number) => write!(text, "{number}"),
        Var::Name(name) => match bound.iter().rposition(|b| b == name) {
            Some(level) => write!(text, "#{level}"),
            None => write!(text, "free {name}"),
        },
    };
}

fn slow_vars(list: &[Var], bound: &[Rc<str>], text: &mut String) {
    for var in list {
        text.push(',');
        slow_var(var, bound, text);
    }
}

fn slow_statement(statement: &Stmt, bound: &mut Vec<Rc<str>>, text: &mut String) {
    match statement {
        Stmt::True => text.push_str("true"),
        Stmt::Fail => text.push_str("fail"),
        Stmt::Same(x, y) => {
            slow_var(x, bound, text);
            text.push('=');
            slow_var(y, bound, text);
        }
        Stmt::Built(x, label, list) => {
            slow_var(x, bound, text);
            let _ = write!(text, "={label}");
            slow_vars(list, bound, text);
        }
        Stmt::Call(name, list) => {
            text.push_str(name);
            slow_vars(list, bound, text);
        }
        Stmt::Comp(a, b) => {
            text.push('(');
            slow_statement(a, bound, text);
            text.push(';');
            slow_statement(b, bound, text);
            text.push(')');
        }
        Stmt::Hide(hidden, inner) => {
            let _ = write!(text, "(hide {}:", hidden.len());
            let outer = bound.len();
            bound.extend_from_slice(hidden);
            slow_statement(inner, bound, text);
            bound.truncate(outer);
            text.push(')');
        }
        Stmt::Choice(clauses) => {
            text.push_str("(choice");
            for clause in clauses {
                let _ = write!(text, " {}:", clause.hidden.len());
                let outer = bound.len();
                bound.extend_from_slice(&clause.hidden);
                slow_statement(&clause.guard, bound, text);
                text.push_str(clause.operator);
                slow_statement(&clause.body, bound, text);
                bound.truncate(outer);
            }
            text.push(')');
        }
    }
}
