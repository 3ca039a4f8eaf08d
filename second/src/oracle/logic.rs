//! Constraints once more, by substitution: slow, and in the words of document 01.

use std::collections::{BTreeSet, HashMap};
use std::rc::Rc;

/// A stored constraint of the slow model.
#[derive(Clone, Debug, PartialEq, Eq)]
pub enum Con {
    Fail,
    Same(u32, u32),
    Built(u32, Rc<str>, Vec<u32>),
}

impl Con {
    /// The variables of a constraint.
    pub fn variables(&self) -> Vec<u32> {
        match self {
            Con::Fail => vec![],
            Con::Same(x, y) => vec![*x, *y],
            Con::Built(x, _, list) => std::iter::once(*x).chain(list.iter().copied()).collect(),
        }
    }
}

/// A term: a tree with variables in it.
#[derive(Clone, Debug, PartialEq, Eq)]
pub enum Term {
    Var(u32),
    Tree(Rc<str>, Vec<Term>),
}

/// What variables stand for, a term each, perhaps with further variables.
#[derive(Clone, Debug, Default)]
pub struct Substitution(HashMap<u32, Term>);

impl Substitution {
    /// The substitution that makes all constraints true and says no more, if
    /// there is one in finite trees.
    pub fn solve(constraints: &[Con]) -> Option<Substitution> {
        let mut substitution = Substitution::default();
        substitution.add_all(constraints).then_some(substitution)
    }

    /// Adds constraints; false when there is no solution left.
    pub fn add_all(&mut self, constraints: &[Con]) -> bool {
        constraints.iter().all(|con| match con {
            Con::Fail => false,
            Con::Same(x, y) => self.unify(&Term::Var(*x), &Term::Var(*y)),
            Con::Built(x, label, list) => {
                let list = list.iter().map(|&v| Term::Var(v)).collect();
                self.unify(&Term::Var(*x), &Term::Tree(label.clone(), list))
            }
        })
    }

    /// Makes two terms equal.
    pub fn unify(&mut self, left: &Term, right: &Term) -> bool {
        match (self.outermost(left), self.outermost(right)) {
            (Term::Var(x), Term::Var(y)) if x == y => true,
            (Term::Var(x), term) | (term, Term::Var(x)) => {
                let free = !self.occurs(x, &term);
                if free {
                    self.0.insert(x, term);
                }
                free
            }
            (Term::Tree(f, xs), Term::Tree(g, ys)) => {
                f == g && xs.len() == ys.len() && xs.iter().zip(&ys).all(|(x, y)| self.unify(x, y))
            }
        }
    }

    /// The term with what its outermost variable stands for put in.
    pub fn outermost(&self, term: &Term) -> Term {
        let mut term = term;
        while let Term::Var(x) = term {
            match self.0.get(x) {
                Some(bound) => term = bound,
                None => break,
            }
        }
        term.clone()
    }

    fn occurs(&self, variable: u32, term: &Term) -> bool {
        match self.outermost(term) {
            Term::Var(x) => x == variable,
            Term::Tree(_, list) => list.iter().any(|term| self.occurs(variable, term)),
        }
    }
}

/// "A constraint with locals V is quiet for an environment when each assignment
/// that satisfies the environment satisfies it too after some choice of values
/// for V." Each variable outside V that the environment leaves open is given a
/// name of its own that occurs nowhere else; if the constraint can be met even
/// so, it asks nothing of them.
pub fn quiet(locals: &BTreeSet<u32>, environment: &[Con], constraint: &[Con]) -> bool {
    let Some(mut substitution) = Substitution::solve(environment) else {
        return true;
    };
    for variable in environment
        .iter()
        .chain(constraint)
        .flat_map(Con::variables)
    {
        if let Term::Var(open) = substitution.outermost(&Term::Var(variable)) {
            if !locals.contains(&variable) {
                let name = Term::Tree(format!("a name of its own {open}").into(), vec![]);
                substitution.unify(&Term::Var(open), &name);
            }
        }
    }
    substitution.add_all(constraint)
}

/// The text of an answer with these constraints, cut off when it grows longer
/// than `room`; nothing when there is no solution.
pub fn text(constraints: &[Con], variables: &[Rc<str>], room: usize) -> Option<String> {
    let substitution = Substitution::solve(constraints)?;
    if variables.is_empty() {
        return Some("true".into());
    }
    let mut text = String::new();
    let mut numbers = Vec::new();
    for (number, name) in variables.iter().enumerate() {
        if number > 0 {
            text.push_str(", ");
        }
        text.push_str(name);
        text.push_str(" = ");
        let term = Term::Var(number as u32);
        write(&substitution, &term, &mut numbers, &mut text, room);
    }
    Some(text)
}

fn write(
    substitution: &Substitution,
    term: &Term,
    numbers: &mut Vec<u32>,
    text: &mut String,
    room: usize,
) {
    if text.len() > room {
        return;
    }
    match substitution.outermost(term) {
        Term::Var(x) => {
            let known = numbers.iter().position(|&y| y == x);
            let number = known.unwrap_or_else(|| {
                numbers.push(x);
                numbers.len() - 1
            });
            text.push_str(&format!("_{number}"));
        }
        Term::Tree(label, list) => {
            text.push_str(&label);
            for (index, term) in list.iter().enumerate() {
                text.push(if index == 0 { '(' } else { ',' });
                write(substitution, term, numbers, text, room);
            }
            if !list.is_empty() {
                text.push(')');
            }
        }
    }
}
