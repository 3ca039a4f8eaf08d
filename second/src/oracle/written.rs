//! Statements and programs as texts, with no more brackets than they need.

use super::text::{Clause, Def, Stmt, Var};
use std::rc::Rc;

/// A program's text; each letter of a name is one byte.
pub fn program(defs: &[Def]) -> Vec<u8> {
    let mut text = String::new();
    for def in defs {
        text += &def.name;
        arguments(&def.parameters, &mut text);
        text += ":=";
        statement(&def.body, &mut text);
        text += ".\n";
    }
    bytes(&text)
}

/// A query's text.
pub fn query(whole: &Stmt) -> Vec<u8> {
    let mut text = String::new();
    statement(whole, &mut text);
    text.push('.');
    bytes(&text)
}

fn bytes(text: &str) -> Vec<u8> {
    text.chars().map(|letter| letter as u8).collect()
}

fn arguments(list: &[Rc<str>], text: &mut String) {
    if !list.is_empty() {
        *text += &format!("({})", list.join(","));
    }
}

/// A number has no name: where it may not stand, the text is of no grammar.
fn var(var: &Var) -> Rc<str> {
    match var {
        Var::Name(name) => name.clone(),
        Var::Number(number) => format!("#{number}").into(),
    }
}

fn vars(list: &[Var]) -> Vec<Rc<str>> {
    list.iter().map(var).collect()
}

fn statement(whole: &Stmt, text: &mut String) {
    match whole {
        Stmt::True => *text += "true",
        Stmt::Fail => *text += "fail",
        Stmt::Same(x, y) => *text += &format!("{}={}", var(x), var(y)),
        Stmt::Built(x, label, list) => {
            *text += &format!("{}={label}", var(x));
            arguments(&vars(list), text);
        }
        Stmt::Call(name, list) => {
            *text += name;
            arguments(&vars(list), text);
        }
        Stmt::Comp(a, b) => {
            // "A, B, C reads as A, (B, C)": the left one needs a bracket.
            let bracket = matches!(**a, Stmt::Comp(..));
            *text += if bracket { "(" } else { "" };
            statement(a, text);
            *text += if bracket { ")," } else { "," };
            statement(b, text);
        }
        Stmt::Hide(hidden, inner) => {
            *text += &format!("({}:", hidden.join(","));
            statement(inner, text);
            text.push(')');
        }
        Stmt::Choice(clauses) => {
            text.push('(');
            for (index, clause) in clauses.iter().enumerate() {
                *text += if index == 0 { "" } else { ";" };
                if !clause.hidden.is_empty() {
                    *text += &format!("{}:", clause.hidden.join(","));
                }
                statement(&clause.guard, text);
                *text += clause.operator;
                statement(&clause.body, text);
            }
            text.push(')');
        }
    }
}

/// Calls `visit` on all variables of a statement.
pub fn each_var(whole: &Stmt, visit: &mut dyn FnMut(&Var)) {
    match whole {
        Stmt::True | Stmt::Fail => {}
        Stmt::Same(x, y) => {
            visit(x);
            visit(y);
        }
        Stmt::Built(x, _, list) => {
            visit(x);
            list.iter().for_each(visit);
        }
        Stmt::Call(_, list) => list.iter().for_each(visit),
        Stmt::Comp(a, b) => {
            each_var(a, visit);
            each_var(b, visit);
        }
        Stmt::Hide(_, inner) => each_var(inner, visit),
        Stmt::Choice(clauses) => {
            for clause in clauses {
                each_var(&clause.guard, visit);
                each_var(&clause.body, visit);
            }
        }
    }
}

/// A statement with names for numbers, which no other variable has.
pub fn named(whole: &Stmt) -> Stmt {
    let var = |var: &Var| match var {
        Var::Number(number) => Var::Name(format!("N{number}").into()),
        name => name.clone(),
    };
    let list = |list: &[Var]| list.iter().map(var).collect();
    match whole {
        Stmt::True => Stmt::True,
        Stmt::Fail => Stmt::Fail,
        Stmt::Same(x, y) => Stmt::Same(var(x), var(y)),
        Stmt::Built(x, label, xs) => Stmt::Built(var(x), label.clone(), list(xs)),
        Stmt::Call(name, xs) => Stmt::Call(name.clone(), list(xs)),
        Stmt::Comp(a, b) => Stmt::Comp(Box::new(named(a)), Box::new(named(b))),
        Stmt::Hide(hidden, inner) => Stmt::Hide(hidden.clone(), Box::new(named(inner))),
        Stmt::Choice(clauses) => {
            let clause = |clause: &Clause| Clause {
                hidden: clause.hidden.clone(),
                guard: named(&clause.guard),
                operator: clause.operator,
                body: named(&clause.body),
            };
            Stmt::Choice(clauses.iter().map(clause).collect())
        }
    }
}
