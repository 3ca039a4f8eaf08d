//! "A store is well formed when its program and statements would pass 2 to 7,
//! locals do not interfere (000, section 4.6), each free variable is local to an
//! and-box around it or, in a body, to every and-box that is its guard or stands
//! in its guard's or-box or in or-boxes nested there, query variables are local
//! to exactly the and-boxes of the top or-box and of or-boxes nested in it, no
//! variable has the next fresh number or a higher one, and parts fit."

use super::fault::{Fault, Faults, Where};
use super::spelling::Spellings;
use super::statements::Statements;
use super::tree::Tree;
use super::State;
use crate::limits::PARTS;
use crate::words::*;

/// All that is wrong with a state.
pub fn faults(state: &State) -> Faults {
    let mut faults = Faults::default();
    let tree = &state.goals;
    let spellings = Spellings::new(&state.raw.cells);
    let mut statements = Statements::new(state, &spellings, &mut faults);
    query(state, &spellings, &mut faults);
    if tree.open(0) != OR {
        faults.note(Fault::Top);
        return faults;
    }
    for node in 0..tree.nodes.len() {
        match (tree.open(node), tree.open(tree.parent(node))) {
            (MEMBER, _) => statements.test(tree, node + 1, 0, Where::Member, &mut faults),
            (GUARDED, _) => statements.test(tree, body(tree, node), 0, Where::Body, &mut faults),
            (_, STORE) => statements.stored(tree, node, &mut faults),
            _ => {}
        }
    }
    interference(tree, &mut faults);
    variables(state, &mut faults);
    faults.note_if(parts(tree) > PARTS as u64, Fault::Parts);
    faults
}

/// The body of a guarded goal.
pub fn body(tree: &Tree, guarded: usize) -> usize {
    tree.end(guarded + 1)
}

/// The numbers in words.
fn numbers(words: &[Word]) -> impl Iterator<Item = u16> + '_ {
    let free = words.iter().filter(|word| word.class == FREE);
    free.map(|word| word.value)
}

/// A number above all in a tree.
fn bound(tree: &Tree) -> usize {
    numbers(&tree.words).max().map_or(0, |x| usize::from(x) + 1)
}

/// The local variables of an and-box.
pub fn locals(tree: &Tree, and: usize) -> impl Iterator<Item = u16> + '_ {
    numbers(tree.own(and + 1))
}

/// "Parts: one for every box, guarded goal, clause, composition, hiding, choice
/// statement, atom, stored constraint, and local or hidden variable."
pub fn parts(tree: &Tree) -> u64 {
    let each = |node: usize| match tree.open(node) {
        // A member's statement counts, and what is in a store.
        MEMBER | STORE => 0,
        LOCALS => tree.own(node).len() as u64,
        HIDE | CLAUSE => 1 + u64::from(tree.own(node)[0].value),
        _ => 1,
    };
    (0..tree.nodes.len()).map(each).sum()
}

/// The names of the query's variables: different ones, spelled as variables.
fn query(state: &State, spellings: &Spellings, faults: &mut Faults) {
    let names = &state.raw.variables;
    let spelled = names.iter().all(|&name| spellings.variable(name));
    faults.note_if(!spelled, Fault::VariableSpelling);
    let again = |at: usize| names[..at].contains(&names[at]);
    faults.note_if((0..names.len()).any(again), Fault::VariableTwice);
    // The query's variables have the numbers from 0.
    let below = names.len() as u32 <= state.raw.next;
    faults.note_if(!below, Fault::NextQuery);
}

/// "Two sets of local variables in a goal interfere if their intersection is
/// non-empty and either they occur in different goals in an and-box, or one
/// occurs in the and-box of the other" (000): if the innermost goal that holds
/// both boxes is an and-box. It is enough to look at neighbours in the order of
/// places, since the innermost goal that holds two boxes also is that of some
/// neighbours between them.
fn interference(tree: &Tree, faults: &mut Faults) {
    let mut last: Vec<Option<usize>> = vec![None; bound(tree)];
    for and in ands(tree) {
        for local in locals(tree, and) {
            let before = last[usize::from(local)].replace(and);
            match before {
                None => {}
                // "a set of local variables"
                Some(before) if before == and => faults.note(Fault::LocalTwice),
                Some(before) => {
                    let mut common = and;
                    while !(common <= before && before < tree.end(common)) {
                        common = tree.parent(common);
                    }
                    if common == before {
                        faults.note(Fault::InterferenceInside);
                    } else if tree.open(common) == AND {
                        faults.note(Fault::InterferenceBeside);
                    }
                }
            }
        }
    }
}

/// All and-boxes, in the order of places.
fn ands(tree: &Tree) -> impl Iterator<Item = usize> + '_ {
    (0..tree.nodes.len()).filter(|&node| tree.open(node) == AND)
}

/// The and-boxes that are a goal or stand in its or-boxes.
fn alternatives(tree: &Tree, goal: usize) -> Vec<usize> {
    let mut found = Vec::new();
    let mut at = goal;
    while at < tree.end(goal) {
        if tree.open(at) == AND {
            found.push(at);
            at = tree.end(at);
        } else {
            at += 1;
        }
    }
    found
}

/// Which variables stand where, in one walk.
struct Walk<'a> {
    tree: &'a Tree,
    next: u32,
    /// In how many and-boxes around the walk each variable is local.
    around: Vec<u32>,
    /// The and-boxes that the walk is in.
    inside: Vec<usize>,
    /// Of how many and-boxes of a guard each variable is local.
    shared: Vec<usize>,
}

/// Scopes, the query's variables, and numbers below the next.
fn variables(state: &State, faults: &mut Faults) {
    let tree = &state.goals;
    let mut walk = Walk {
        tree,
        next: state.raw.next,
        around: vec![0; bound(tree)],
        inside: Vec::new(),
        shared: vec![0; bound(tree)],
    };
    let top = alternatives(tree, 0);
    let count = state.raw.variables.len() as u16;
    for node in 0..tree.nodes.len() {
        while walk.inside.last().is_some_and(|&and| tree.end(and) <= node) {
            walk.leave();
        }
        match tree.open(node) {
            AND => {
                walk.enter(node);
                let own: Vec<u16> = locals(tree, node).filter(|&x| x < count).collect();
                if top.binary_search(&node).is_ok() {
                    let all = (0..count).all(|x| own.contains(&x));
                    faults.note_if(!all, Fault::QueryNotLocal);
                } else {
                    faults.note_if(!own.is_empty(), Fault::QueryLocalElsewhere);
                }
                walk.below(locals(tree, node), Fault::NextLocal, faults);
            }
            STORE => walk.test(node, Fault::ScopeStore, Fault::NextStore, faults),
            MEMBER => walk.test(node, Fault::ScopeMember, Fault::NextMember, faults),
            GUARDED => walk.test_body(node, faults),
            _ => {}
        }
    }
}

impl Walk<'_> {
    fn enter(&mut self, and: usize) {
        self.inside.push(and);
        for local in locals(self.tree, and) {
            self.around[usize::from(local)] += 1;
        }
    }

    fn leave(&mut self) {
        let and = self.inside.pop().expect("entered");
        for local in locals(self.tree, and) {
            self.around[usize::from(local)] -= 1;
        }
    }

    fn below(&self, mut all: impl Iterator<Item = u16>, fault: Fault, faults: &mut Faults) {
        faults.note_if(all.any(|x| u32::from(x) >= self.next), fault);
    }

    /// The variables of a member or of a store; the store's own box is around
    /// it.
    fn test(&self, node: usize, scope: Fault, next: Fault, faults: &mut Faults) {
        let words = &self.tree.words[self.tree.span(node)];
        let local = |x: u16| self.around[usize::from(x)] > 0;
        faults.note_if(!numbers(words).all(local), scope);
        self.below(numbers(words), next, faults);
    }

    fn test_body(&mut self, guarded: usize, faults: &mut Faults) {
        let tree = self.tree;
        let words = &tree.words[tree.span(body(tree, guarded))];
        let guards = alternatives(tree, guarded + 1);
        for (index, &and) in guards.iter().enumerate() {
            for local in locals(tree, and) {
                let shared = &mut self.shared[usize::from(local)];
                // Local to all boxes so far.
                if *shared == index {
                    *shared += 1;
                }
            }
        }
        let local = |x: u16| {
            let x = usize::from(x);
            self.around[x] > 0 || self.shared[x] == guards.len()
        };
        faults.note_if(!numbers(words).all(local), Fault::ScopeBody);
        self.below(numbers(words), Fault::NextBody, faults);
        for &and in &guards {
            for local in locals(tree, and) {
                self.shared[usize::from(local)] = 0;
            }
        }
    }
}
