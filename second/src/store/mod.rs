//! Stores: states as bytes, and refusal 9.
//!
//! Shared with the verified checker is the form alone: the regions
//! (crates/store_form/specs/Sizes.antt, Form.antt), the words and their order.
//! The test is document 01's sentence "A store is well formed when ..", on the
//! checker's own trees.

pub mod fault;
pub mod form;
pub mod formed;
pub mod resume;
mod spelling;
mod statements;
pub mod tree;
pub mod write;

use fault::{Fault, Faults};
use form::Raw;
use tree::{Definition, Tree};

/// What a well-formed store holds.
#[derive(Clone, Debug, PartialEq, Eq)]
pub struct State {
    /// The numbers and words, which are also those of `rules` and `goals`.
    pub raw: Raw,
    pub definitions: Vec<Definition>,
    /// The bodies of the definitions.
    pub rules: Tree,
    /// The configuration.
    pub goals: Tree,
}

/// "store holds no well-formed program and configuration": the state, or none
/// if 9 is due. What is past the documented length is not looked at; shorter
/// slices are refused by 8 before this is asked.
pub fn refusal_9(bytes: &[u8]) -> Option<State> {
    judge(bytes).ok()
}

/// The state, or what is wrong. The form is asked first, then brackets and
/// their order, then all that is left; of the first of these three that finds a
/// fault, all faults are told.
pub fn judge(bytes: &[u8]) -> Result<State, Faults> {
    let mut faults = Faults::default();
    let raw = Raw::read(bytes, &mut faults);
    faults.none()?;
    let mut faults = Faults::default();
    let rules = tree::program(&raw.program);
    let goals = tree::configuration(&raw.config);
    faults.note_if(rules.is_none(), Fault::ProgramShape);
    faults.note_if(goals.is_none(), Fault::ConfigShape);
    let (Some((definitions, rules)), Some(goals)) = (rules, goals) else {
        return Err(faults);
    };
    let state = State {
        raw,
        definitions,
        rules,
        goals,
    };
    formed::faults(&state).none()?;
    Ok(state)
}
