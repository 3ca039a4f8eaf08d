//! Well-formed stores once more: "would pass 2 to 7" by writing a text and
//! reading it, the others by plain recursion, straight from the sentences.

use super::logic::Con;
use super::model::Goal;
use super::stored::{demand, small, state, No, Read, State};
use super::text::{self, Def, Stmt, Stop, Var};
use super::written;
use std::collections::BTreeSet;

/// Whether a store is well formed; nothing for large ones.
pub fn judge(bytes: &[u8]) -> Option<bool> {
    match state(bytes).and_then(|state| state.formed()) {
        Ok(()) => Some(true),
        Err(No::Formed) => Some(false),
        Err(No::Small) => None,
    }
}

/// What a reader says of a text; 1 is about texts alone.
fn read<T>(result: Result<T, Stop>) -> Read<T> {
    match result {
        Ok(read) => Ok(read),
        Err(Stop::Refused(1) | Stop::TooDeep) => Err(No::Small),
        Err(Stop::Refused(_)) => Err(No::Formed),
    }
}

/// The program's text reads as the program.
fn program_passes(defs: &[Def]) -> Read<()> {
    let text = written::program(defs);
    demand(read(text::program(&text))? == defs)
}

impl State {
    fn formed(&self) -> Read<()> {
        program_passes(&self.defs)?;
        for (index, name) in self.query.iter().enumerate() {
            demand(!self.query[..index].contains(name))?;
            // It reads as a variable.
            let same = Stmt::Same(Var::Name(name.clone()), Var::Name(name.clone()));
            self.passes(&same)?;
        }
        let ways = self.top.ways();
        let goals: Vec<&Goal> = ways.iter().map(|way| self.top.at(way)).collect();
        let mut all: BTreeSet<u32> = (0..self.query.len() as u32).collect();
        for goal in &goals {
            match goal {
                Goal::And(locals, store, _) => {
                    let set: BTreeSet<u32> = locals.iter().copied().collect();
                    demand(set.len() == locals.len())?;
                    all.extend(set);
                    for constraint in store {
                        self.passes(&atom(constraint))?;
                        all.extend(constraint.variables());
                    }
                }
                Goal::Member(statement) | Goal::Guarded(_, statement) => {
                    self.passes(statement)?;
                    numbers(statement, &mut all);
                }
                _ => {}
            }
        }
        demand(all.iter().all(|&x| x < self.next))?;
        demand(!interferes(&self.top))?;
        demand(scoped(&self.top, &[]))?;
        for (goal, way) in goals.iter().zip(&ways) {
            if let Goal::And(locals, ..) = goal {
                let or_box = |depth| matches!(self.top.at(&way[..depth]), Goal::Or(_));
                let in_top = (0..way.len()).all(or_box);
                let local = |x: u32| locals.contains(&x) == in_top;
                demand((0..self.query.len() as u32).all(local))?;
            }
        }
        demand(self.top.parts() <= 2_048)
    }

    /// A statement's text reads as the statement.
    fn passes(&self, statement: &Stmt) -> Read<()> {
        let mut all = BTreeSet::new();
        numbers(statement, &mut all);
        // 16 is for the variables of a query.
        small(all.len() <= 16)?;
        let named = written::named(statement);
        let text = written::query(&named);
        demand(read(text::query(&text, &self.defs))?.0 == named)
    }
}

/// The atom that a constraint was.
fn atom(constraint: &Con) -> Stmt {
    let var = |x: &u32| Var::Number(*x);
    match constraint {
        Con::Fail => Stmt::Fail,
        Con::Same(x, y) => Stmt::Same(var(x), var(y)),
        Con::Built(x, label, list) => {
            Stmt::Built(var(x), label.clone(), list.iter().map(var).collect())
        }
    }
}

/// The numbers in a statement.
fn numbers(statement: &Stmt, found: &mut BTreeSet<u32>) {
    written::each_var(statement, &mut |var| {
        if let Var::Number(number) = var {
            found.insert(*number);
        }
    });
}

/// "Two sets of local variables in a goal interfere if their intersection is
/// non-empty and either they occur in different goals in an and-box, or one
/// occurs in the and-box of the other."
fn interferes(goal: &Goal) -> bool {
    let inside = goal.children().iter().any(interferes);
    let Goal::And(locals, _, members) = goal else {
        return inside;
    };
    let meet = |a: &BTreeSet<u32>, b: &BTreeSet<u32>| a.intersection(b).next().is_some();
    let own = locals.iter().copied().collect();
    let different = (0..members.len())
        .any(|i| (0..i).any(|j| meet(&members[i].locals(), &members[j].locals())));
    inside || different || members.iter().any(|m| meet(&m.locals(), &own))
}

/// "each free variable is local to an and-box around it or, in a body, to every
/// and-box that is its guard or stands in its guard's or-box or in or-boxes
/// nested there"
fn scoped(goal: &Goal, around: &[u32]) -> bool {
    match goal {
        Goal::And(locals, store, members) => {
            let around = [around, locals].concat();
            let stored = |con: &Con| con.variables().iter().all(|x| around.contains(x));
            store.iter().all(stored) && members.iter().all(|m| scoped(m, &around))
        }
        Goal::Member(statement) => {
            let mut free = BTreeSet::new();
            numbers(statement, &mut free);
            free.iter().all(|x| around.contains(x))
        }
        Goal::Guarded(guard, body) => {
            let mut free = BTreeSet::new();
            numbers(body, &mut free);
            let local = |x: &u32| around.contains(x) || local_to_all(guard, *x);
            scoped(guard, around) && free.iter().all(local)
        }
        _ => goal.children().iter().all(|child| scoped(child, around)),
    }
}

fn local_to_all(guard: &Goal, x: u32) -> bool {
    match guard {
        Goal::And(locals, ..) => locals.contains(&x),
        _ => guard.children().iter().all(|child| local_to_all(child, x)),
    }
}
