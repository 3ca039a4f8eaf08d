//! Configurations once more, as plain trees: places, parts, kinds, environments.

use super::logic::Con;
use super::text::{Clause, Stmt, Var};
use std::collections::BTreeSet;
use std::rc::Rc;

/// A goal.
#[derive(Clone, Debug, PartialEq, Eq)]
pub enum Goal {
    Or(Vec<Goal>),
    And(Vec<u32>, Vec<Con>, Vec<Goal>),
    Choice(&'static str, Vec<Goal>),
    /// guard and body
    Guarded(Box<Goal>, Stmt),
    Member(Stmt),
}

/// A way from the top: which child at each goal.
pub type Way = Vec<usize>;

impl Goal {
    pub fn children(&self) -> &[Goal] {
        match self {
            Goal::Or(list) | Goal::And(_, _, list) | Goal::Choice(_, list) => list,
            Goal::Guarded(guard, _) => std::slice::from_ref(guard),
            Goal::Member(_) => &[],
        }
    }

    pub fn at(&self, way: &[usize]) -> &Goal {
        way.iter()
            .fold(self, |goal, &child| &goal.children()[child])
    }

    pub fn at_mut(&mut self, way: &[usize]) -> &mut Goal {
        let Some((&child, rest)) = way.split_first() else {
            return self;
        };
        match self {
            Goal::Or(list) | Goal::And(_, _, list) | Goal::Choice(_, list) => {
                list[child].at_mut(rest)
            }
            Goal::Guarded(guard, _) => guard.at_mut(rest),
            Goal::Member(_) => unreachable!("a statement holds no goals"),
        }
    }

    /// The children of a box, to be changed.
    pub fn list_mut(&mut self) -> &mut Vec<Goal> {
        match self {
            Goal::Or(list) | Goal::And(_, _, list) | Goal::Choice(_, list) => list,
            _ => unreachable!("not a box"),
        }
    }

    /// "Places number boxes, guarded goals and and-box members from 0, parent
    /// before child, left to right."
    pub fn ways(&self) -> Vec<Way> {
        fn visit(goal: &Goal, way: &mut Way, found: &mut Vec<Way>) {
            found.push(way.clone());
            for (index, child) in goal.children().iter().enumerate() {
                way.push(index);
                visit(child, way, found);
                way.pop();
            }
        }
        let mut found = Vec::new();
        visit(self, &mut Vec::new(), &mut found);
        found
    }

    /// "Parts: one for every box, guarded goal, clause, composition, hiding,
    /// choice statement, atom, stored constraint, and local or hidden variable."
    pub fn parts(&self) -> usize {
        let inside: usize = self.children().iter().map(Goal::parts).sum();
        inside
            + match self {
                Goal::Or(_) | Goal::Choice(..) => 1,
                Goal::And(locals, store, _) => 1 + locals.len() + store.len(),
                Goal::Guarded(_, body) => 1 + statement_parts(body),
                Goal::Member(statement) => statement_parts(statement),
            }
    }

    /// "The environment of a goal is all constraints stored in and-boxes around
    /// it": around the goal at `way`, from the goal at depth `from` on.
    pub fn stores(&self, way: &[usize], from: usize) -> Vec<Con> {
        let mut found = Vec::new();
        for depth in from..way.len() {
            if let Goal::And(_, store, _) = self.at(&way[..depth]) {
                found.extend_from_slice(store);
            }
        }
        found
    }

    /// The locals of every and-box at or inside a goal.
    pub fn locals(&self) -> BTreeSet<u32> {
        let mut found: BTreeSet<u32> = self.children().iter().flat_map(Goal::locals).collect();
        if let Goal::And(locals, _, _) = self {
            found.extend(locals);
        }
        found
    }

    /// The store and locals of a solved and-box.
    pub fn solved(&self) -> Option<(&[u32], &[Con])> {
        match self {
            Goal::And(locals, store, members) if members.is_empty() => Some((locals, store)),
            _ => None,
        }
    }
}

/// The parts of a statement.
pub fn statement_parts(statement: &Stmt) -> usize {
    match statement {
        Stmt::True | Stmt::Fail | Stmt::Same(..) | Stmt::Built(..) | Stmt::Call(..) => 1,
        Stmt::Comp(a, b) => 1 + statement_parts(a) + statement_parts(b),
        Stmt::Hide(hidden, inner) => 1 + hidden.len() + statement_parts(inner),
        Stmt::Choice(clauses) => 1 + clauses.iter().map(clause_parts).sum::<usize>(),
    }
}

fn clause_parts(clause: &Clause) -> usize {
    1 + clause.hidden.len() + statement_parts(&clause.guard) + statement_parts(&clause.body)
}

/// A statement with variables put for names, where they are not covered.
pub fn put(statement: &Stmt, names: &[Rc<str>], vars: &[Var]) -> Stmt {
    let var = |var: &Var| match var {
        Var::Name(name) => match names.iter().position(|n| n == name) {
            Some(index) => vars[index].clone(),
            None => var.clone(),
        },
        Var::Number(_) => var.clone(),
    };
    let list = |list: &[Var]| list.iter().map(var).collect();
    match statement {
        Stmt::True => Stmt::True,
        Stmt::Fail => Stmt::Fail,
        Stmt::Same(x, y) => Stmt::Same(var(x), var(y)),
        Stmt::Built(x, label, xs) => Stmt::Built(var(x), label.clone(), list(xs)),
        Stmt::Call(name, xs) => Stmt::Call(name.clone(), list(xs)),
        Stmt::Comp(a, b) => {
            Stmt::Comp(Box::new(put(a, names, vars)), Box::new(put(b, names, vars)))
        }
        Stmt::Hide(hidden, inner) => {
            let (names, vars) = uncovered(hidden, names, vars);
            Stmt::Hide(hidden.clone(), Box::new(put(inner, &names, &vars)))
        }
        Stmt::Choice(clauses) => Stmt::Choice(
            clauses
                .iter()
                .map(|clause| {
                    let (names, vars) = uncovered(&clause.hidden, names, vars);
                    Clause {
                        hidden: clause.hidden.clone(),
                        guard: put(&clause.guard, &names, &vars),
                        operator: clause.operator,
                        body: put(&clause.body, &names, &vars),
                    }
                })
                .collect(),
        ),
    }
}

/// "A hidden name covers an outer one of the same spelling."
fn uncovered(hidden: &[Rc<str>], names: &[Rc<str>], vars: &[Var]) -> (Vec<Rc<str>>, Vec<Var>) {
    let pairs = names.iter().cloned().zip(vars.iter().cloned());
    pairs.filter(|(name, _)| !hidden.contains(name)).unzip()
}

/// The number of a variable in a configuration.
pub fn number(var: &Var) -> u32 {
    match var {
        Var::Number(number) => *number,
        Var::Name(_) => unreachable!("free names do not occur in a configuration"),
    }
}

/// The constraint that a constraint atom stores: `true` adds nothing.
pub fn constraint(atom: &Stmt) -> Option<Con> {
    match atom {
        Stmt::Fail => Some(Con::Fail),
        Stmt::Same(x, y) => Some(Con::Same(number(x), number(y))),
        Stmt::Built(x, label, list) => Some(Con::Built(
            number(x),
            label.clone(),
            list.iter().map(number).collect(),
        )),
        _ => None,
    }
}
