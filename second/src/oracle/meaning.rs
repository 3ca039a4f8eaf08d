//! What a configuration means: its solutions, with bounded unfoldings.
//!
//! Document 01, "A composition, hiding or clause holds when ..": a solution is
//! found by choosing one alternative at every choice and or-box, and is then a
//! conjunction of constraints. Each conjunction that can be met is written as
//! the text of an answer, and the texts stand for the solutions: they are the
//! same exactly when the solutions are.

use super::logic::{text, Con, Substitution};
use super::model::{constraint, put, Goal};
use super::rewrite::Model;
use super::text::{Def, Stmt, Var};
use std::collections::BTreeSet;
use std::rc::Rc;

/// More conjunctions than this are not looked at.
const MOST: usize = 150;
/// Texts are compared up to this length.
const ROOM: usize = 2_000;

struct Expander<'a> {
    defs: &'a [Def],
    next: u32,
}

type Alternatives = Vec<Vec<Con>>;

/// The solutions of a configuration, calls being unfolded at most `unfoldings`
/// deep. Nothing when there are too many to look at.
pub fn solutions(model: &Model, unfoldings: usize) -> Option<BTreeSet<String>> {
    solutions_of(&model.top, &model.defs, &model.variables, unfoldings)
}

/// The same of any goal whose free variables are the query's.
pub fn solutions_of(
    goal: &Goal,
    defs: &[Def],
    variables: &[Rc<str>],
    unfoldings: usize,
) -> Option<BTreeSet<String>> {
    let next = 1_000_000;
    let alternatives = Expander { defs, next }.goal(goal, unfoldings)?;
    let texts = alternatives.iter().map(|all| text(all, variables, ROOM));
    Some(texts.flatten().collect())
}

impl Expander<'_> {
    /// All ways to take one of the left and one of the right together.
    fn both(left: Alternatives, right: Alternatives) -> Option<Alternatives> {
        let mut found = Vec::new();
        for a in &left {
            for b in &right {
                let all = [&a[..], &b[..]].concat();
                if Substitution::solve(&all).is_some() {
                    found.push(all);
                }
                if found.len() > MOST {
                    return None;
                }
            }
        }
        Some(found)
    }

    fn goal(&mut self, goal: &Goal, unfoldings: usize) -> Option<Alternatives> {
        match goal {
            Goal::Or(list) | Goal::Choice(_, list) => {
                let mut found = Vec::new();
                for part in list {
                    found.extend(self.goal(part, unfoldings)?);
                }
                (found.len() <= MOST).then_some(found)
            }
            Goal::And(_, store, members) => {
                let mut all = vec![store.clone()];
                for member in members {
                    all = Self::both(all, self.goal(member, unfoldings)?)?;
                }
                Some(all)
            }
            Goal::Guarded(guard, body) => {
                let guard = self.goal(guard, unfoldings)?;
                if guard.is_empty() {
                    return Some(guard);
                }
                Self::both(guard, self.statement(body, unfoldings)?)
            }
            Goal::Member(statement) => self.statement(statement, unfoldings),
        }
    }

    fn hidden(&mut self, hidden: &[Rc<str>]) -> Vec<Var> {
        let first = self.next;
        self.next += hidden.len() as u32;
        (first..self.next).map(Var::Number).collect()
    }

    fn statement(&mut self, statement: &Stmt, unfoldings: usize) -> Option<Alternatives> {
        match statement {
            Stmt::True | Stmt::Fail | Stmt::Same(..) | Stmt::Built(..) => {
                Some(vec![constraint(statement).into_iter().collect()])
            }
            Stmt::Call(name, list) => {
                if unfoldings == 0 {
                    return Some(vec![]);
                }
                let same = |d: &&Def| d.name == *name && d.parameters.len() == list.len();
                let def = self.defs.iter().find(same)?;
                let body = put(&def.body, &def.parameters, list);
                self.statement(&body, unfoldings - 1)
            }
            Stmt::Comp(a, b) => {
                let left = self.statement(a, unfoldings)?;
                let right = self.statement(b, unfoldings)?;
                Self::both(left, right)
            }
            Stmt::Hide(hidden, inner) => {
                let vars = self.hidden(hidden);
                self.statement(&put(inner, hidden, &vars), unfoldings)
            }
            Stmt::Choice(clauses) => {
                let mut found = Vec::new();
                for clause in clauses {
                    let vars = self.hidden(&clause.hidden);
                    let guard = put(&clause.guard, &clause.hidden, &vars);
                    let body = put(&clause.body, &clause.hidden, &vars);
                    let guard = self.statement(&guard, unfoldings)?;
                    let body = self.statement(&body, unfoldings)?;
                    found.extend(Self::both(guard, body)?);
                }
                (found.len() <= MOST).then_some(found)
            }
        }
    }
}
