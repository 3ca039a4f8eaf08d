//! Damaged stores: one change to the numbers and words of a right one, at times
//! a harmless one. Each clause of well-formedness has changes of its own, most
//! of which go to the limit or one past it; others change anything.

mod boxes;
mod bytes;
mod noise;
mod statements;
mod tables;

pub use bytes::spoil_bytes;

use crate::random::Random;
use crate::store::form::Raw;
use crate::store::tree::{self, Definition, Tree};
use crate::words::*;

/// A store that is being damaged, with its brackets as they were before.
pub struct Patient<'a> {
    pub random: &'a mut Random,
    pub raw: Raw,
    definitions: Vec<Definition>,
    rules: Tree,
    goals: Tree,
}

type Change = fn(&mut Patient) -> Option<()>;

/// The changes, with names for people.
const CHANGES: [(&str, Change); 46] = [
    ("a word", noise::word_changed),
    ("a word inserted", noise::word_inserted),
    ("a word removed", noise::word_removed),
    ("words exchanged", noise::words_exchanged),
    ("an end moved", noise::end_moved),
    ("brackets exchanged", noise::brackets_exchanged),
    ("a bracket doubled", noise::bracket_doubled),
    ("a bracket removed", noise::bracket_removed),
    ("a bracket moved", noise::bracket_moved),
    ("a bracket of another kind", noise::bracket_turned),
    ("a variable", noise::variable_changed),
    ("variables exchanged", noise::variables_exchanged),
    ("depth", statements::deepened),
    ("arguments", statements::arguments),
    ("an empty hiding", statements::empty_hiding),
    ("an empty choice", statements::empty_choice),
    ("hidden variables", statements::hidden),
    ("a level", statements::level),
    ("a constructor's name", statements::constructor),
    ("a predicate's name", statements::predicate),
    ("a call's arguments", statements::call_arguments),
    ("a number in a program", statements::number),
    ("a head's name", tables::head_name),
    ("parameters", tables::parameters),
    ("definitions", tables::definitions),
    ("a program's words", tables::program_words),
    ("names and program", tables::names_and_program),
    ("a definition twice or gone", tables::definition),
    ("query variables", tables::variables),
    ("the next number", tables::next),
    ("a node's cell", tables::cell),
    ("nodes", tables::nodes),
    ("nodes in another order", tables::other_order),
    ("the top", boxes::top),
    ("or-boxes nested", boxes::nested),
    ("a stored constraint", boxes::stored),
    ("a local twice", boxes::local_twice),
    ("a local gone", boxes::local_gone),
    ("a local more", boxes::local_more),
    ("a local of a box inside or beside", boxes::local_shared),
    ("a local copied with its guard", boxes::local_copied),
    ("a query variable's box", boxes::query_local),
    ("a guard's boxes", boxes::guard_boxes),
    ("a failed guard", boxes::failed_guard),
    ("a body's variable", boxes::body_variable),
    ("parts", boxes::parts),
];

/// Damages a store; what was done.
pub fn spoil(random: &mut Random, right: &Raw) -> (Raw, &'static str) {
    loop {
        let (name, change) = *random.pick(&CHANGES);
        let Some(mut patient) = Patient::new(random, right.clone()) else {
            unreachable!("a right store");
        };
        if change(&mut patient).is_none() {
            continue;
        }
        let raw = patient.raw;
        if !random.once_in(12) {
            return (raw, name);
        }
        // A second change, where there still are brackets and a table.
        let Some(mut again) = Patient::new(random, raw.clone()) else {
            return (raw, name);
        };
        let (_, change) = *again.random.pick(&CHANGES);
        let done = change(&mut again);
        return match done {
            Some(()) => (again.raw, "two changes"),
            None => (raw, name),
        };
    }
}

/// The program or the configuration.
#[derive(Clone, Copy, Debug, PartialEq, Eq)]
enum Side {
    Rules,
    Goals,
}

impl<'a> Patient<'a> {
    fn new(random: &'a mut Random, raw: Raw) -> Option<Patient<'a>> {
        let (definitions, rules) = tree::program(&raw.program)?;
        let goals = tree::configuration(&raw.config)?;
        raw.cells.first()?;
        Some(Patient {
            random,
            raw,
            definitions,
            rules,
            goals,
        })
    }

    fn tree(&self, side: Side) -> &Tree {
        match side {
            Side::Rules => &self.rules,
            Side::Goals => &self.goals,
        }
    }

    fn words(&mut self, side: Side) -> &mut Vec<Word> {
        match side {
            Side::Rules => &mut self.raw.program,
            Side::Goals => &mut self.raw.config,
        }
    }

    fn side(&mut self) -> Side {
        match self.random.weighted(&[1, 2]) {
            0 => Side::Rules,
            _ => Side::Goals,
        }
    }

    /// One of the brackets that are as asked.
    fn some(&mut self, side: Side, asked: impl Fn(&Tree, usize) -> bool) -> Option<usize> {
        let tree = self.tree(side);
        let all = 0..tree.nodes.len();
        let found: Vec<usize> = all.filter(|&node| asked(tree, node)).collect();
        (!found.is_empty()).then(|| *self.random.pick(&found))
    }

    /// An atom of a statement.
    fn atom(&mut self, side: Side) -> Option<usize> {
        self.some(side, |tree, node| {
            let atom = tree::atom(tree.open(node)) || tree.open(node) == CALL;
            atom && tree.open(tree.parent(node)) != STORE
        })
    }

    /// How many brackets of a text are open around a statement's bracket, and
    /// how many variables are bound there.
    fn around(&self, side: Side, node: usize) -> (usize, usize) {
        let tree = self.tree(side);
        let (mut depth, mut bound) = (0, 0);
        let mut at = node;
        loop {
            let parent = tree.parent(at);
            if parent == at {
                break;
            }
            let open = tree.open(parent);
            let grand = tree.parent(parent);
            let left = tree.open(grand) == COMP && parent == grand + 1 && grand != parent;
            match open {
                HIDE => depth += 1,
                COMP if left => depth += 1,
                _ if tree::choice(open) => depth += 1,
                _ => {}
            }
            if open == HIDE || open == CLAUSE {
                bound += usize::from(tree.own(parent)[0].value);
            }
            at = parent;
        }
        if side == Side::Rules {
            let definition = self.definitions.iter().find(|d| d.body == at);
            bound += definition.map_or(0, |d| usize::from(d.parameters));
        }
        (depth, bound)
    }

    /// A variable that may stand in a statement's bracket: bound, or local
    /// around it.
    fn variable(&mut self, side: Side, node: usize) -> Option<Word> {
        let (_, bound) = self.around(side, node);
        let mut found: Vec<Word> = (0..bound.min(99)).map(|l| word(LEVEL, l as u16)).collect();
        if side == Side::Goals {
            let mut at = node;
            while self.goals.parent(at) != at {
                at = self.goals.parent(at);
                if self.goals.open(at) == AND {
                    found.extend(self.goals.own(at + 1));
                }
            }
        }
        (!found.is_empty()).then(|| *self.random.pick(&found))
    }

    /// Puts words in the place of a bracket.
    fn replace(&mut self, side: Side, node: usize, new: Vec<Word>) {
        let span = self.tree(side).span(node);
        self.words(side).splice(span, new);
    }

    /// Puts words at the end of a bracket's own words.
    fn add_own(&mut self, side: Side, node: usize, new: Vec<Word>) {
        let at = self.tree(side).nodes[node].inner as usize;
        self.words(side).splice(at..at, new);
    }

    /// Puts words at the end of a bracket.
    fn add_last(&mut self, side: Side, node: usize, new: Vec<Word>) {
        let at = self.tree(side).nodes[node].close as usize;
        self.words(side).splice(at..at, new);
    }

    /// The words of a bracket.
    fn copy(&self, side: Side, node: usize) -> Vec<Word> {
        let tree = self.tree(side);
        tree.words[tree.span(node)].to_vec()
    }

    /// A number at a limit or one past it.
    fn limit(&mut self, limit: usize) -> usize {
        limit + self.random.below(2)
    }

    /// The node of a name, which joins the table if it is not there.
    fn node(&mut self, name: &[u8]) -> u16 {
        let mut at = 0;
        for &byte in name {
            let cell = at as u32 * 256 + u32::from(byte);
            let found = (1..self.raw.cells.len()).find(|&n| self.raw.cells[n] == cell);
            at = found.unwrap_or_else(|| {
                self.raw.cells.push(cell);
                self.raw.cells.len() - 1
            });
        }
        at as u16
    }

    /// The node of some name: one of the table, or one made up.
    fn some_name(&mut self) -> u16 {
        let count = self.raw.cells.len();
        let over = self.random.below(2);
        match self.random.below(14) {
            0..=4 => self.random.below(count) as u16,
            5 => count as u16 + over as u16,
            6 => self.node(b"1a"),
            7 => self.node(b"Nb"),
            8 => self.node(b"_a"),
            9 => self.node(b"a-b"),
            10 => self.node(&vec![b'n'; 32 + over]),
            11 => self.node(&vec![b'7'; 32 + over]),
            12 => self.node(b"true"),
            _ => self.node(b"n_9Z"),
        }
    }
}
