//! The fourteen rules once more, on plain trees and straight from the table.

use super::logic::{quiet, text, Con, Substitution};
use super::model::{constraint, put, Goal, Way};
use super::text::{Def, Stmt, Var};
use crate::limits::Limits;
use std::rc::Rc;

/// A run of the slow model.
#[derive(Clone, Debug)]
pub struct Model {
    pub defs: Rc<Vec<Def>>,
    pub variables: Rc<Vec<Rc<str>>>,
    pub top: Goal,
    pub next: u32,
    pub limits: Limits,
}

impl Model {
    /// The start of a query, or 15.
    pub fn start(
        defs: Rc<Vec<Def>>,
        statement: &Stmt,
        variables: Vec<Rc<str>>,
        limits: Limits,
    ) -> Result<Model, u32> {
        let count = variables.len() as u32;
        let vars: Vec<Var> = (0..count).map(Var::Number).collect();
        let member = Goal::Member(put(statement, &variables, &vars));
        let top = Goal::Or(vec![Goal::And((0..count).collect(), vec![], vec![member])]);
        if top.parts() > limits.parts {
            return Err(15);
        }
        Ok(Model {
            defs,
            variables: Rc::new(variables),
            top,
            next: count,
            limits,
        })
    }

    /// One step: the new run or the refusal's number.
    pub fn step(&self, rule: u32, place: u32, argument: u32) -> Result<Model, u32> {
        if !(1..=14).contains(&rule) {
            return Err(10);
        }
        let ways = self.top.ways();
        let way = ways.get(place as usize).ok_or(11u32)?;
        let no_such = argument as usize >= ways.len();
        if (rule != 12 && argument != 0) || (rule == 12 && no_such) {
            return Err(11);
        }
        if !self.takes(rule, way) {
            return Err(12);
        }
        if !self.condition(rule, way, &ways[argument as usize]) {
            return Err(13);
        }
        let mut after = self.clone();
        after.rewrite(rule, way);
        if after.next > self.next && after.next - 1 > self.limits.last_variable {
            return Err(14);
        }
        if after.top.parts() > self.limits.parts {
            return Err(15);
        }
        Ok(after)
    }

    /// The kind of place that each rule takes.
    fn takes(&self, rule: u32, way: &[usize]) -> bool {
        let goal = self.top.at(way);
        match rule {
            1 => matches!(
                goal,
                Goal::Member(Stmt::True | Stmt::Fail | Stmt::Same(..) | Stmt::Built(..))
            ),
            2 => matches!(goal, Goal::Member(Stmt::Call(..))),
            3 => matches!(goal, Goal::Member(Stmt::Comp(..))),
            4 => matches!(goal, Goal::Member(Stmt::Hide(..))),
            5 => matches!(goal, Goal::Member(Stmt::Choice(..))),
            6 | 10 | 12 => matches!(goal, Goal::Choice(..)),
            7 | 8 | 11 | 13 => matches!(goal, Goal::Guarded(..)),
            9 => matches!(goal, Goal::And(..)),
            _ => {
                let member = !way.is_empty() && matches!(self.around(way), Goal::Or(_));
                matches!(goal, Goal::Or(_)) && member
            }
        }
    }

    fn around(&self, way: &[usize]) -> &Goal {
        self.top.at(&way[..way.len() - 1])
    }

    /// Whether the guard of the guarded goal at `way` is solved and quiet.
    fn solved_and_quiet(&self, way: &[usize]) -> bool {
        match self.top.at(way).children()[0].solved() {
            None => false,
            Some((locals, store)) => {
                let locals = locals.iter().copied().collect();
                quiet(&locals, &self.top.stores(way, 0), store)
            }
        }
    }

    fn condition(&self, rule: u32, way: &[usize], named: &[usize]) -> bool {
        let goal = self.top.at(way);
        match rule {
            6 => {
                let Goal::Choice(operator, list) = goal else {
                    return false;
                };
                let only = [way, &[0]].concat();
                list.len() == 1
                    && list[0].children()[0].solved().is_some()
                    && (*operator == "?" || self.solved_and_quiet(&only))
            }
            7 | 8 => {
                let Goal::Choice(operator, list) = self.around(way) else {
                    return false;
                };
                let right = way[way.len() - 1] + 1 < list.len();
                let enough = if rule == 7 {
                    *operator == "->" && right
                } else {
                    *operator == "|" && list.len() > 1
                };
                enough && self.solved_and_quiet(way)
            }
            9 => {
                let mut all = self.top.stores(way, 0);
                if let Goal::And(_, store, _) = goal {
                    all.extend_from_slice(store);
                }
                Substitution::solve(&all).is_none()
            }
            10 => goal.children().is_empty(),
            11 => goal.children()[0] == Goal::Or(vec![]),
            12 => {
                let Goal::Choice(operator, list) = goal else {
                    return false;
                };
                let and = &way[..way.len() - 1];
                *operator == "?"
                    && list.len() >= 2
                    && list[0].children()[0].solved().is_some()
                    && and.starts_with(named)
                    && self.stable(named)
            }
            13 => matches!(&goal.children()[0], Goal::Or(list) if !list.is_empty()),
            _ => true,
        }
    }

    /// Which goal a rule at a place rewrites.
    fn rewritten(rule: u32, way: &[usize]) -> &[usize] {
        match rule {
            // the member; the and-box at its own place
            2 | 5 | 9 => way,
            // the and-box, the choice-box or the outer or-box around the place
            _ => &way[..way.len() - 1],
        }
    }

    /// Stability, sentence by sentence.
    pub fn stable(&self, goal: &[usize]) -> bool {
        let ways = self.top.ways();
        let disturbed = (1..=14).filter(|&rule| rule != 12).any(|rule| {
            ways.iter().any(|way| {
                self.takes(rule, way)
                    && Self::rewritten(rule, way).starts_with(goal)
                    && self.condition(rule, way, &[])
            })
        });
        let locals = self.top.at(goal).locals();
        let environment = self.top.stores(goal, 0);
        !disturbed
            && ways.iter().filter(|way| way.starts_with(goal)).all(|way| {
                let Goal::And(_, store, _) = self.top.at(way) else {
                    return true;
                };
                let mut stores = self.top.stores(way, goal.len());
                stores.extend_from_slice(store);
                quiet(&locals, &environment, &stores)
            })
    }

    fn fresh(&mut self, count: usize) -> Vec<u32> {
        let first = self.next;
        self.next += count as u32;
        (first..self.next).collect()
    }

    fn rewrite(&mut self, rule: u32, way: &Way) {
        let goal = self.top.at(way).clone();
        let (&index, outer) = way.split_last().unwrap_or((&0, &[]));
        match (rule, goal) {
            (1, Goal::Member(atom)) => {
                if let Goal::And(_, store, members) = self.top.at_mut(outer) {
                    store.extend(constraint(&atom));
                    members.remove(index);
                }
            }
            (2, Goal::Member(Stmt::Call(name, list))) => {
                let same = |d: &&Def| d.name == name && d.parameters.len() == list.len();
                let def = self.defs.iter().find(same).expect("defined");
                let body = put(&def.body, &def.parameters, &list);
                *self.top.at_mut(way) = Goal::Member(body);
            }
            (3, Goal::Member(Stmt::Comp(a, b))) => {
                let both = [Goal::Member(*a), Goal::Member(*b)];
                self.top
                    .at_mut(outer)
                    .list_mut()
                    .splice(index..=index, both);
            }
            (4, Goal::Member(Stmt::Hide(hidden, inner))) => {
                let fresh = self.fresh(hidden.len());
                let vars: Vec<Var> = fresh.iter().map(|&v| Var::Number(v)).collect();
                if let Goal::And(locals, _, members) = self.top.at_mut(outer) {
                    locals.extend(fresh);
                    members[index] = Goal::Member(put(&inner, &hidden, &vars));
                }
            }
            (5, Goal::Member(Stmt::Choice(clauses))) => {
                let mut list = Vec::new();
                for clause in &clauses {
                    let fresh = self.fresh(clause.hidden.len());
                    let vars: Vec<Var> = fresh.iter().map(|&v| Var::Number(v)).collect();
                    let guard = Goal::Member(put(&clause.guard, &clause.hidden, &vars));
                    let body = put(&clause.body, &clause.hidden, &vars);
                    let and = Goal::And(fresh, vec![], vec![guard]);
                    list.push(Goal::Guarded(Box::new(and), body));
                }
                *self.top.at_mut(way) = Goal::Choice(clauses[0].operator, list);
            }
            (6, Goal::Choice(_, mut list)) => {
                if let Goal::Guarded(guard, body) = list.remove(0) {
                    if let (Goal::And(theirs, theta, _), Goal::And(locals, store, members)) =
                        (*guard, self.top.at_mut(outer))
                    {
                        store.extend(theta);
                        locals.extend(theirs);
                        members[index] = Goal::Member(body);
                    }
                }
            }
            (7, _) => self.top.at_mut(outer).list_mut().truncate(index + 1),
            (8, goal) => *self.top.at_mut(outer).list_mut() = vec![goal],
            (9, _) => *self.top.at_mut(way) = Goal::Or(vec![]),
            (10, _) => *self.top.at_mut(outer) = Goal::Or(vec![]),
            (11, _) => {
                self.top.at_mut(outer).list_mut().remove(index);
            }
            (12, Goal::Choice(operator, list)) => {
                let and = self.top.at(outer).clone();
                let copy = |part: &[Goal]| {
                    let mut copy = and.clone();
                    copy.list_mut()[index] = Goal::Choice(operator, part.to_vec());
                    copy
                };
                let both = vec![copy(&list[..1]), copy(&list[1..])];
                *self.top.at_mut(outer) = Goal::Or(both);
            }
            (13, Goal::Guarded(guard, body)) => {
                if let Goal::Or(mut parts) = *guard {
                    let first = parts.remove(0);
                    let both = [
                        Goal::Guarded(Box::new(first), body.clone()),
                        Goal::Guarded(Box::new(Goal::Or(parts)), body),
                    ];
                    self.top
                        .at_mut(outer)
                        .list_mut()
                        .splice(index..=index, both);
                }
            }
            (14, Goal::Or(parts)) => {
                self.top
                    .at_mut(outer)
                    .list_mut()
                    .splice(index..=index, parts);
            }
            _ => unreachable!("the kind was checked"),
        }
    }

    /// The stores of the answers, left to right.
    pub fn answer_stores(&self) -> Vec<Vec<Con>> {
        fn visit(goal: &Goal, found: &mut Vec<Vec<Con>>) {
            if let Goal::Or(list) = goal {
                list.iter().for_each(|child| visit(child, found));
            }
            if let Some((_, store)) = goal.solved() {
                if Substitution::solve(store).is_some() {
                    found.push(store.to_vec());
                }
            }
        }
        let mut found = Vec::new();
        visit(&self.top, &mut found);
        found
    }

    /// The text of each answer, or `long`.
    pub fn answers(&self, room: usize) -> Vec<String> {
        let text = |store: &Vec<Con>| text(store, &self.variables, room).expect("satisfiable");
        let cut = |text: String| {
            if text.len() > room {
                "long".into()
            } else {
                text
            }
        };
        self.answer_stores().iter().map(text).map(cut).collect()
    }

    pub fn state(&self) -> &'static str {
        let list = self.top.children();
        let answer = |goal: &Goal| {
            let store = goal.solved().map(|(_, store)| Substitution::solve(store));
            matches!(store, Some(Some(_)))
        };
        match list {
            [] => "failed",
            _ if list.iter().all(answer) => "final",
            _ => "open",
        }
    }
}
