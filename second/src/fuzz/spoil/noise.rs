//! Changes of words, brackets and variables wherever they stand.

use super::{Patient, Side};
use crate::words::*;

/// A place among the words, if there are any.
fn place(patient: &mut Patient) -> Option<(Side, usize)> {
    let side = patient.side();
    let count = patient.words(side).len();
    (count > 0).then(|| (side, patient.random.below(count)))
}

/// Some word; at times none at all.
fn any_word(patient: &mut Patient) -> Word {
    let random = &mut *patient.random;
    match random.below(10) {
        0 | 1 => END,
        2 | 3 => word(PLACE, random.below(8) as u16),
        4 | 5 => word(INNER, random.below(14) as u16),
        6 => word(random.below(256) as u8, random.below(1 << 16) as u16),
        7 => word(random.below(7) as u8, random.below(3) as u16),
        _ => word(random.between(1, 3) as u8, random.below(20) as u16),
    }
}

pub fn word_changed(patient: &mut Patient) -> Option<()> {
    let (side, at) = place(patient)?;
    let mut new = any_word(patient);
    let old = patient.words(side)[at];
    match patient.random.below(5) {
        0 => new.value = old.value,
        1 => new.class = old.class,
        2 => new = word(old.class, old.value.wrapping_add(1)),
        _ => {}
    }
    patient.words(side)[at] = new;
    Some(())
}

pub fn word_inserted(patient: &mut Patient) -> Option<()> {
    let (side, at) = place(patient)?;
    let new = any_word(patient);
    let at = match patient.random.below(8) {
        0 => patient.words(side).len(),
        _ => at,
    };
    patient.words(side).insert(at, new);
    Some(())
}

pub fn word_removed(patient: &mut Patient) -> Option<()> {
    let (side, at) = place(patient)?;
    let last = patient.words(side).len() - 1;
    let at = if patient.random.once_in(8) { last } else { at };
    patient.words(side).remove(at);
    Some(())
}

pub fn words_exchanged(patient: &mut Patient) -> Option<()> {
    let (side, at) = place(patient)?;
    let count = patient.words(side).len();
    let near = count.min(at + patient.random.between(1, 6)) - 1;
    let far = patient.random.below(count);
    let other = *patient.random.pick(&[near, far]);
    patient.words(side).swap(at, other);
    Some(())
}

pub fn end_moved(patient: &mut Patient) -> Option<()> {
    let side = patient.side();
    let count = patient.words(side).len();
    let ends: Vec<usize> = (0..count)
        .filter(|&at| patient.words(side)[at] == END)
        .collect();
    if ends.is_empty() {
        return None;
    }
    let from = *patient.random.pick(&ends);
    let to = match patient.random.below(3) {
        0 => patient.random.below(count),
        _ => (from + patient.random.below(9)).saturating_sub(4),
    };
    let words = patient.words(side);
    words.remove(from);
    let to = to.min(words.len());
    words.insert(to, END);
    Some(())
}

fn any(patient: &mut Patient, side: Side) -> Option<usize> {
    patient.some(side, |_, _| true)
}

pub fn brackets_exchanged(patient: &mut Patient) -> Option<()> {
    let side = patient.side();
    let one = any(patient, side)?;
    let kind = patient.tree(side).open(one);
    let class = |open: Word| crate::store::tree::statement(open);
    let alike = patient.random.once_in(2);
    let other = patient.some(side, |tree, node| {
        let open = tree.open(node);
        !alike || open == kind || (class(open) && class(kind))
    })?;
    let (first, second) = (one.min(other), one.max(other));
    if second < patient.tree(side).end(first) {
        return None;
    }
    let (a, b) = (patient.copy(side, first), patient.copy(side, second));
    patient.replace(side, second, a);
    patient.replace(side, first, b);
    Some(())
}

pub fn bracket_doubled(patient: &mut Patient) -> Option<()> {
    let side = patient.side();
    let node = any(patient, side)?;
    let mut twice = patient.copy(side, node);
    twice.extend_from_within(..);
    patient.replace(side, node, twice);
    Some(())
}

pub fn bracket_removed(patient: &mut Patient) -> Option<()> {
    let side = patient.side();
    let node = any(patient, side)?;
    patient.replace(side, node, vec![]);
    Some(())
}

/// A copy of a bracket to the end of another.
pub fn bracket_moved(patient: &mut Patient) -> Option<()> {
    let side = patient.side();
    let (from, to) = (any(patient, side)?, any(patient, side)?);
    let words = patient.copy(side, from);
    patient.add_last(side, to, words);
    Some(())
}

pub fn bracket_turned(patient: &mut Patient) -> Option<()> {
    let side = patient.side();
    let node = any(patient, side)?;
    let at = patient.tree(side).span(node).start;
    let open = patient.tree(side).open(node);
    let kinds: &[Word] = match open {
        OR | AND => &[OR, AND],
        WAIT | COND | COMMIT => &[WAIT, COND, COMMIT],
        ASK_WAIT | ASK_COND | ASK_COMMIT => &[ASK_WAIT, ASK_COND, ASK_COMMIT],
        TRUE | FAIL => &[TRUE, FAIL],
        _ => &[EQ, APP, CALL, COMP, HIDE, CLAUSE, MEMBER, GUARDED],
    };
    let new = *patient.random.pick(kinds);
    patient.words(side)[at] = new;
    Some(())
}

/// Places of numbers in the configuration.
fn numbers(patient: &mut Patient) -> Option<Vec<usize>> {
    let words = &patient.raw.config;
    let all = (0..words.len()).filter(|&at| words[at].class == FREE);
    let found: Vec<usize> = all.collect();
    (!found.is_empty()).then_some(found)
}

pub fn variable_changed(patient: &mut Patient) -> Option<()> {
    let places = numbers(patient)?;
    let at = *patient.random.pick(&places);
    let other = patient.raw.config[*patient.random.pick(&places)].value;
    let next = patient.raw.next as u16;
    let values = [other, next, next.wrapping_sub(1), 0, next.wrapping_add(7)];
    patient.raw.config[at].value = *patient.random.pick(&values);
    Some(())
}

pub fn variables_exchanged(patient: &mut Patient) -> Option<()> {
    let places = numbers(patient)?;
    let (one, other) = (*patient.random.pick(&places), *patient.random.pick(&places));
    patient.raw.config.swap(one, other);
    Some(())
}
