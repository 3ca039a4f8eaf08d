//! Changes of boxes, locals, stores, guards and bodies, and of the count of
//! parts.

use super::{Patient, Side};
use crate::limits::{ARGUMENTS, PARTS};
use crate::store::formed;
use crate::words::*;

const GOALS: Side = Side::Goals;

fn is(open: Word) -> impl Fn(&crate::store::tree::Tree, usize) -> bool {
    move |tree, node| tree.open(node) == open
}

/// An and-box alone, or more than one top.
pub fn top(patient: &mut Patient) -> Option<()> {
    let and = patient.some(GOALS, is(AND))?;
    let words = patient.copy(GOALS, and);
    match patient.random.below(3) {
        0 => patient.raw.config.extend(words),
        _ => patient.raw.config = words,
    }
    Some(())
}

/// A goal inside many or-boxes.
pub fn nested(patient: &mut Patient) -> Option<()> {
    let goal = patient.some(GOALS, |tree, node| {
        crate::store::tree::goal(tree.open(node))
    })?;
    let there = formed::parts(&patient.goals) as usize;
    let most = patient.limit(PARTS).checked_sub(there)?;
    let depth = *patient.random.pick(&[1, 2, 3, 100, most]);
    let mut words = vec![OR; depth];
    words.extend(patient.copy(GOALS, goal));
    words.extend(vec![END; depth]);
    patient.replace(GOALS, goal, words);
    Some(())
}

/// A variable for an and-box's store: one that is local there or around.
fn local(patient: &mut Patient, and: usize) -> Option<Word> {
    patient.variable(GOALS, and + 2)
}

pub fn stored(patient: &mut Patient) -> Option<()> {
    let and = patient.some(GOALS, is(AND))?;
    let store = patient.goals.end(and + 1);
    let words = match (patient.random.below(6), local(patient, and)) {
        (0, _) => vec![TRUE, END],
        (1, _) => vec![FAIL, END],
        (2, Some(x)) => {
            let name = word(NUM, patient.some_name());
            vec![APP, x, name, END]
        }
        (3, Some(x)) => {
            let mut words = vec![APP, x, word(NUM, patient.node(b"fail"))];
            let count = patient.limit(ARGUMENTS);
            words.extend(vec![x; count]);
            words.push(END);
            words
        }
        (4, _) => {
            let bound = patient.raw.next as usize + 2;
            let mut any = || word(FREE, patient.random.below(bound) as u16);
            vec![EQ, any(), any(), END]
        }
        (_, x) => vec![EQ, x?, x?, END],
    };
    patient.add_last(GOALS, store, words);
    Some(())
}

/// The places of the locals of all and-boxes.
fn locals(patient: &Patient) -> Vec<usize> {
    let tree = &patient.goals;
    let lists = (0..tree.nodes.len()).filter(|&node| tree.open(node) == LOCALS);
    lists
        .flat_map(|node| tree.span(node).start + 1..tree.span(node).end - 1)
        .collect()
}

pub fn local_twice(patient: &mut Patient) -> Option<()> {
    let places = locals(patient);
    if places.is_empty() {
        return None;
    }
    let at = *patient.random.pick(&places);
    let word = patient.raw.config[at];
    patient.raw.config.insert(at, word);
    Some(())
}

pub fn local_gone(patient: &mut Patient) -> Option<()> {
    let places = locals(patient);
    if places.is_empty() {
        return None;
    }
    let at = *patient.random.pick(&places);
    patient.raw.config.remove(at);
    Some(())
}

/// A local with a new number, the next one or one further.
pub fn local_more(patient: &mut Patient) -> Option<()> {
    let list = patient.some(GOALS, is(LOCALS))?;
    let number = patient.raw.next + patient.random.below(2) as u32;
    let next = patient.raw.next + patient.random.below(3) as u32;
    if next > 65_535 {
        return None;
    }
    patient.add_own(GOALS, list, vec![word(FREE, number as u16)]);
    patient.raw.next = next;
    Some(())
}

/// A local of one and-box joins another.
pub fn local_shared(patient: &mut Patient) -> Option<()> {
    let from = patient.some(GOALS, is(LOCALS))?;
    let to = patient.some(GOALS, is(LOCALS))?;
    if from == to {
        return None;
    }
    let own = patient.goals.own(from).to_vec();
    if own.is_empty() {
        return None;
    }
    let word = *patient.random.pick(&own);
    patient.add_own(GOALS, to, vec![word]);
    Some(())
}

/// A new local of a guard, and a copy of the guarded goal beside it, of its
/// choice-box beside that, or of the local in the box around.
pub fn local_copied(patient: &mut Patient) -> Option<()> {
    let guarded = patient.some(GOALS, |tree, node| {
        tree.open(node) == GUARDED && tree.open(node + 1) == AND
    })?;
    let local = word(FREE, u16::try_from(patient.raw.next).ok()?);
    let at = patient.goals.nodes[guarded + 2].inner as usize;
    patient.raw.config.insert(at, local);
    patient.raw.next += 1;
    let choice = patient.goals.parent(guarded);
    // The brackets are those of before: each has a word more from here on.
    let longer = |node: usize| {
        let span = patient.goals.span(node);
        span.start..span.end + 1
    };
    match patient.random.below(4) {
        0 => {
            let span = longer(guarded);
            let words = patient.raw.config[span.clone()].to_vec();
            patient.raw.config.splice(span.end..span.end, words);
        }
        1 | 2 => {
            let span = longer(choice);
            let words = patient.raw.config[span.clone()].to_vec();
            patient.raw.config.splice(span.end..span.end, words);
        }
        _ => {
            let around = patient.goals.parent(choice);
            patient.add_own(GOALS, around + 1, vec![local]);
        }
    }
    Some(())
}

/// A query variable leaves a box of the top, or joins a box of a guard.
pub fn query_local(patient: &mut Patient) -> Option<()> {
    let count = patient.raw.variables.len();
    if count == 0 {
        return None;
    }
    let number = patient.random.below(count) as u16;
    let list = patient.some(GOALS, is(LOCALS))?;
    let mut words = patient.copy(GOALS, list);
    match words.iter().position(|w| *w == word(FREE, number)) {
        Some(at) => {
            words.remove(at);
        }
        None => words.insert(1, word(FREE, number)),
    }
    patient.replace(GOALS, list, words);
    Some(())
}

/// A guard gets a second alternative: with all its locals, with none, or with
/// one fewer, at times further in.
pub fn guard_boxes(patient: &mut Patient) -> Option<()> {
    let guarded = patient.some(GOALS, is(GUARDED))?;
    let guard = guarded + 1;
    let mut own = match patient.goals.open(guard) {
        AND => patient.goals.own(guard + 1).to_vec(),
        _ => vec![],
    };
    match patient.random.below(3) {
        0 => own.clear(),
        1 => {
            own.pop();
        }
        _ => {}
    }
    let mut other = vec![AND, LOCALS];
    other.extend(own);
    other.extend([END, STORE, END, END]);
    if patient.random.once_in(2) {
        other.insert(0, OR);
        other.push(END);
    }
    let mut words = vec![OR];
    words.extend(patient.copy(GOALS, guard));
    words.extend(other);
    words.push(END);
    patient.replace(GOALS, guard, words);
    Some(())
}

/// A guard without and-boxes; any variable used before may stand in its body.
pub fn failed_guard(patient: &mut Patient) -> Option<()> {
    let guarded = patient.some(GOALS, is(GUARDED))?;
    if patient.random.once_in(2) {
        let number = patient.raw.next + patient.random.below(3) as u32;
        let variable = word(FREE, number.saturating_sub(1) as u16);
        let body = formed::body(&patient.goals, guarded);
        patient.replace(GOALS, body, vec![EQ, variable, variable, END]);
    }
    let words = match patient.random.below(2) {
        0 => vec![OR, END],
        _ => vec![OR, OR, END, OR, END, END],
    };
    patient.replace(GOALS, guarded + 1, words);
    Some(())
}

/// A body, or a member, with some variable.
pub fn body_variable(patient: &mut Patient) -> Option<()> {
    let number = patient.random.below(patient.raw.next as usize + 2) as u16;
    let variable = word(FREE, number);
    let words = vec![EQ, variable, variable, END];
    let node = match patient.random.below(3) {
        0 => patient.some(GOALS, is(MEMBER))? + 1,
        _ => {
            let guarded = patient.some(GOALS, is(GUARDED))?;
            formed::body(&patient.goals, guarded)
        }
    };
    patient.replace(GOALS, node, words);
    Some(())
}

/// As many parts as may be, or one more.
pub fn parts(patient: &mut Patient) -> Option<()> {
    let there = formed::parts(&patient.goals) as usize;
    let missing = patient.limit(PARTS).checked_sub(there)?;
    match patient.random.below(6) {
        0 => patient.add_last(GOALS, 0, [OR, END].repeat(missing)),
        1 => {
            let store = patient.some(GOALS, is(STORE))?;
            patient.add_last(GOALS, store, [FAIL, END].repeat(missing));
        }
        2 => {
            let and = patient.some(GOALS, is(AND))?;
            let words = [MEMBER, TRUE, END, END].repeat(missing);
            patient.add_last(GOALS, and, words);
        }
        3 => {
            // 14 words a part, as many as there is room for.
            let and = patient.some(GOALS, is(AND))?;
            let x = local(patient, and)?;
            let mut member = vec![MEMBER, APP, x, word(NUM, patient.node(b"true"))];
            member.extend([x; ARGUMENTS]);
            member.extend([END, END]);
            patient.add_last(GOALS, and, member.repeat(missing));
        }
        4 => {
            let list = patient.some(GOALS, is(LOCALS))?;
            let first = patient.raw.next as usize;
            let last = first + missing;
            if last > 65_535 {
                return None;
            }
            let new = (first..last).map(|x| word(FREE, x as u16)).collect();
            patient.add_own(GOALS, list, new);
            patient.raw.next = last as u32;
        }
        _ => {
            let member = patient.some(GOALS, is(MEMBER))? + 1;
            let mut words = vec![HIDE, word(NUM, missing.checked_sub(1)? as u16)];
            words.extend(patient.copy(GOALS, member));
            words.push(END);
            let (depth, _) = patient.around(GOALS, member);
            let atom = crate::store::tree::atom(patient.goals.open(member));
            if depth > 0 || !atom {
                return None;
            }
            patient.replace(GOALS, member, words);
        }
    }
    Some(())
}
