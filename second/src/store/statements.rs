//! "its program and statements would pass 2 to 7"

use super::fault::{Fault, Faults, Trouble, Where};
use super::spelling::Spellings;
use super::tree::{choice, Tree};
use super::State;
use crate::limits::{ARGUMENTS, DEFINITIONS, DEPTH};
use crate::words::*;
use std::collections::HashSet;

/// The test of statements.
pub struct Statements<'a> {
    spellings: &'a Spellings<'a>,
    /// The node and arity of each definition.
    defined: HashSet<(u16, usize)>,
    /// For each bracket of a statement: how many brackets of a text are open
    /// inside it, and how many variables are bound there.
    inside: Vec<(usize, u64)>,
}

impl<'a> Statements<'a> {
    /// Tests the program.
    pub fn new(state: &State, spellings: &'a Spellings<'a>, faults: &mut Faults) -> Statements<'a> {
        let mut statements = Statements {
            spellings,
            defined: HashSet::new(),
            inside: Vec::new(),
        };
        let definitions = &state.definitions;
        faults.note_if(definitions.len() > DEFINITIONS, Fault::Definitions);
        for definition in definitions {
            let parameters = usize::from(definition.parameters);
            let named = spellings.predicate(definition.name.into());
            faults.note_if(parameters > ARGUMENTS, Fault::Parameters);
            faults.note_if(!named, Fault::HeadSpelling);
            let new = statements.defined.insert((definition.name, parameters));
            faults.note_if(!new, Fault::DefinedTwice);
        }
        let number = |word: &Word| word.class == FREE;
        let numbers = state.rules.words.iter().any(number);
        faults.note_if(numbers, Fault::NumberInProgram);
        for definition in definitions {
            let bound = definition.parameters.into();
            let rules = &state.rules;
            statements.test(rules, definition.body, bound, Where::Program, faults);
        }
        statements
    }

    /// Tests a statement in which so many variables are bound from outside.
    pub fn test(
        &mut self,
        tree: &Tree,
        root: usize,
        bound: u64,
        place: Where,
        faults: &mut Faults,
    ) {
        self.inside.resize(tree.nodes.len(), (0, 0));
        for node in root..tree.end(root) {
            let parent = tree.parent(node);
            let (depth, bound) = match node {
                _ if node == root => (0, bound),
                _ => self.inside[parent],
            };
            let open = tree.open(node);
            let own = tree.own(node);
            // A composition to the left of a comma stands in a bracket: "A, B, C
            // reads as A, (B, C)".
            let left = node != root && tree.open(parent) == COMP && node == parent + 1;
            let bracket = open == HIDE || choice(open) || (open == COMP && left);
            let depth = depth + usize::from(bracket);
            let mut note = |wrong: bool, trouble: Trouble| {
                faults.note_if(wrong, Fault::Statement(place, trouble));
            };
            note(depth > DEPTH, Trouble::Depth);
            let mut hidden = 0;
            match open {
                HIDE | CLAUSE => {
                    hidden = own[0].value;
                    note(open == HIDE && hidden == 0, Trouble::EmptyHiding);
                }
                CALL => {
                    let key = (own[0].value, own.len() - 1);
                    note(own.len() > 1 + ARGUMENTS, Trouble::Arguments);
                    note(!self.defined.contains(&key), Trouble::NoDefinition);
                }
                APP => self.constructor(own, place, faults),
                _ if choice(open) => note(tree.children(node).count() == 0, Trouble::EmptyChoice),
                _ => {}
            }
            let unbound = |word: &Word| word.class == LEVEL && u64::from(word.value) >= bound;
            let trouble = Fault::Statement(place, Trouble::Level);
            faults.note_if(own.iter().any(unbound), trouble);
            self.inside[node] = (depth, bound + u64::from(hidden));
        }
    }

    /// Tests a constraint's variable, constructor and arguments.
    fn constructor(&self, own: &[Word], place: Where, faults: &mut Faults) {
        let mut note = |wrong: bool, trouble: Trouble| {
            faults.note_if(wrong, Fault::Statement(place, trouble));
        };
        note(own.len() > 2 + ARGUMENTS, Trouble::Arguments);
        let named = self.spellings.constructor(own[1].value.into());
        note(!named, Trouble::Spelling);
    }

    /// Tests a stored constraint, which was an atom of a statement.
    pub fn stored(&self, tree: &Tree, node: usize, faults: &mut Faults) {
        match tree.open(node) {
            TRUE => faults.note(Fault::StoredTrue),
            APP => self.constructor(tree.own(node), Where::Store, faults),
            _ => {}
        }
    }
}
