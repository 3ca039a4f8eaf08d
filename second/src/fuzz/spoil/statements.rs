//! Changes for the clauses on statements: "would pass 2 to 7".

use super::{Patient, Side};
use crate::limits::{ARGUMENTS, DEPTH};
use crate::words::*;

/// Puts an atom so deep that its brackets come to the limit or one past it.
pub fn deepened(patient: &mut Patient) -> Option<()> {
    let side = patient.side();
    let node = patient.atom(side)?;
    let (depth, _) = patient.around(side, node);
    let mut words = patient.copy(side, node);
    let mut levels = patient.limit(DEPTH);
    if patient.random.once_in(8) {
        levels = patient.random.between(DEPTH, 300);
    }
    let mut inner = words[0];
    for _ in depth..levels {
        match patient.random.below(5) {
            0 | 1 => wrap(&mut words, &[HIDE, word(NUM, 1)], &[END]),
            2 => wrap(
                &mut words,
                &[ASK_COND, CLAUSE, word(NUM, 1)],
                &[FAIL, END, END, END],
            ),
            3 => {
                let before = [ASK_WAIT, CLAUSE, word(NUM, 0), TRUE, END];
                wrap(&mut words, &before, &[END, END]);
            }
            _ => {
                // A composition in a composition, on its left.
                if inner != COMP {
                    wrap(&mut words, &[COMP], &[TRUE, END, END]);
                }
                wrap(&mut words, &[COMP], &[TRUE, END, END]);
            }
        }
        inner = words[0];
    }
    patient.replace(side, node, words);
    Some(())
}

fn wrap(words: &mut Vec<Word>, before: &[Word], after: &[Word]) {
    words.splice(..0, before.iter().copied());
    words.extend_from_slice(after);
}

/// A constructor in an atom's place, with 8 or 9 arguments.
pub fn arguments(patient: &mut Patient) -> Option<()> {
    let side = patient.side();
    let node = patient.atom(side)?;
    let variable = patient.variable(side, node)?;
    let name = patient.node(b"true");
    let count = patient.limit(ARGUMENTS);
    let mut words = vec![APP, variable, word(NUM, name)];
    words.extend(vec![variable; count]);
    words.push(END);
    patient.replace(side, node, words);
    Some(())
}

pub fn empty_hiding(patient: &mut Patient) -> Option<()> {
    let side = patient.side();
    let node = patient.atom(side)?;
    let mut words = patient.copy(side, node);
    let count = patient.random.below(2) as u16;
    wrap(&mut words, &[HIDE, word(NUM, count)], &[END]);
    patient.replace(side, node, words);
    Some(())
}

/// A choice without clauses, or one that loses one.
pub fn empty_choice(patient: &mut Patient) -> Option<()> {
    let side = patient.side();
    if patient.random.once_in(2) {
        let clause = patient.some(side, |tree, node| tree.open(node) == CLAUSE)?;
        patient.replace(side, clause, vec![]);
        return Some(());
    }
    let node = patient.atom(side)?;
    let open = *patient.random.pick(&[ASK_WAIT, ASK_COND, ASK_COMMIT]);
    patient.replace(side, node, vec![open, END]);
    Some(())
}

/// How many variables a hiding or a clause hides.
pub fn hidden(patient: &mut Patient) -> Option<()> {
    let side = patient.side();
    let node = patient.some(side, |tree, node| matches!(tree.open(node), HIDE | CLAUSE))?;
    let at = patient.tree(side).span(node).start + 1;
    let count = patient.words(side)[at].value;
    let (more, fewer) = (count.wrapping_add(1), count.saturating_sub(1));
    let values = [0, 1, more, fewer, 2_047, 65_535];
    patient.words(side)[at].value = *patient.random.pick(&values);
    Some(())
}

/// An atom with the first level that is not bound, or the last that is.
pub fn level(patient: &mut Patient) -> Option<()> {
    let side = patient.side();
    let node = patient.atom(side)?;
    let (_, bound) = patient.around(side, node);
    let level = (bound + patient.random.below(2)).checked_sub(1)?;
    let variable = word(LEVEL, level as u16);
    let other = patient.variable(side, node).unwrap_or(variable);
    patient.replace(side, node, vec![EQ, other, variable, END]);
    Some(())
}

/// An atom with some name as its constructor.
pub fn constructor(patient: &mut Patient) -> Option<()> {
    let side = patient.side();
    let node = patient.atom(side)?;
    let variable = patient.variable(side, node)?;
    let name = word(NUM, patient.some_name());
    patient.replace(side, node, vec![APP, variable, name, variable, END]);
    Some(())
}

/// A call of some name.
pub fn predicate(patient: &mut Patient) -> Option<()> {
    let side = patient.side();
    let node = patient.atom(side)?;
    let name = match patient.definitions.is_empty() {
        false if patient.random.once_in(2) => patient.random.pick(&patient.definitions).name,
        _ => patient.some_name(),
    };
    let mut words = vec![CALL, word(NUM, name)];
    if let Some(variable) = patient.variable(side, node) {
        words.extend(vec![variable; patient.random.below(3)]);
    }
    words.push(END);
    patient.replace(side, node, words);
    Some(())
}

/// A call with an argument more or fewer.
pub fn call_arguments(patient: &mut Patient) -> Option<()> {
    let side = patient.side();
    let call = patient.some(side, |tree, node| tree.open(node) == CALL)?;
    let mut words = patient.copy(side, call);
    match patient.variable(side, call) {
        Some(variable) if patient.random.once_in(2) => words.insert(2, variable),
        _ if words.len() > 3 => {
            words.remove(2);
        }
        _ => return None,
    }
    patient.replace(side, call, words);
    Some(())
}

/// A variable's number in a program; a level in what is stored.
pub fn number(patient: &mut Patient) -> Option<()> {
    if patient.random.once_in(4) {
        let and = patient.some(Side::Goals, |tree, node| tree.open(node) == STORE)?;
        let level = word(LEVEL, 0);
        patient.add_last(Side::Goals, and, vec![EQ, level, level, END]);
        return Some(());
    }
    let node = patient.atom(Side::Rules)?;
    let number = word(FREE, 0);
    patient.replace(Side::Rules, node, vec![EQ, number, number, END]);
    Some(())
}
