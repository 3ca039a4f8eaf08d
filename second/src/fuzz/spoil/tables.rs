//! Changes of definitions, query variables, the next number and names.

use super::{Patient, Side};
use crate::limits::{ARGUMENTS, DEFINITIONS, QUERY_VARIABLES};
use crate::store::form::{NODES, PROGRAM_WORDS, TOGETHER};
use crate::store::tree::Definition;
use crate::words::*;

/// A definition, and where its words begin.
fn some_definition(patient: &mut Patient) -> Option<(Definition, usize)> {
    if patient.definitions.is_empty() {
        return None;
    }
    let definition = *patient.random.pick(&patient.definitions);
    Some((definition, patient.rules.span(definition.body).start - 2))
}

pub fn head_name(patient: &mut Patient) -> Option<()> {
    let (definition, at) = match some_definition(patient) {
        Some(found) if patient.random.once_in(2) => found,
        _ => {
            // A definition that nothing uses.
            let name = word(NUM, patient.some_name());
            patient.raw.program.extend([name, word(NUM, 5), TRUE, END]);
            return Some(());
        }
    };
    let other = patient.random.pick(&patient.definitions).name;
    let some = patient.some_name();
    let name = *patient.random.pick(&[other, some]);
    if name == definition.name {
        return None;
    }
    patient.raw.program[at].value = name;
    Some(())
}

pub fn parameters(patient: &mut Patient) -> Option<()> {
    if patient.random.once_in(2) {
        let name = word(NUM, patient.node(b"n_9Z"));
        let count = word(NUM, patient.limit(ARGUMENTS) as u16);
        patient.raw.program.extend([name, count, TRUE, END]);
        return Some(());
    }
    let (definition, at) = some_definition(patient)?;
    let count = definition.parameters;
    let values = [0, count.wrapping_add(1), 8, 9, 256, 65_535];
    patient.raw.program[at + 1].value = *patient.random.pick(&values);
    Some(())
}

/// As many definitions as may be, or one more.
pub fn definitions(patient: &mut Patient) -> Option<()> {
    let count = patient
        .limit(DEFINITIONS)
        .checked_sub(patient.definitions.len())?;
    let arities = ARGUMENTS + 1;
    for number in 0..count {
        let name = patient.node(format!("n{}", number / arities).as_bytes());
        let head = [name, (number % arities) as u16].map(|value| word(NUM, value));
        patient.raw.program.extend(head);
        patient.raw.program.extend([TRUE, END]);
    }
    Some(())
}

/// As many words of a program as may be, or one more, in one definition.
pub fn program_words(patient: &mut Patient) -> Option<()> {
    let wanted = patient.limit(PROGRAM_WORDS);
    fill_program(patient, wanted)
}

/// As many nodes and words of a program together as may be, or one more.
pub fn names_and_program(patient: &mut Patient) -> Option<()> {
    let most = patient.limit(TOGETHER);
    if patient.random.once_in(2) {
        fill_program(patient, PROGRAM_WORDS)?;
        let there = patient.raw.cells.len() + PROGRAM_WORDS;
        add_nodes(patient, most.checked_sub(there)?);
        return Some(());
    }
    // The definition's own names come first.
    patient.node(b"true");
    patient.node(b"n_9Z");
    let there = patient.raw.cells.len();
    add_nodes(patient, NODES.checked_sub(there)?);
    fill_program(patient, most - NODES)
}

/// One definition more, so that the program has as many words as are wanted.
fn fill_program(patient: &mut Patient, wanted: usize) -> Option<()> {
    let length = patient.raw.program.len();
    let missing = wanted.checked_sub(length + 8)? + 8;
    let name = word(NUM, patient.node(b"true"));
    let x = word(LEVEL, 0);
    // Four words for each atom of two with its composition or the head, and
    // what is missing then.
    let last = match missing % 4 {
        0 => vec![FAIL, END],
        1 => vec![APP, x, name, x, x, x, END],
        2 => vec![EQ, x, x, END],
        _ => vec![APP, x, name, x, END],
    };
    let atoms = (missing - (last.len() - 2)) / 4;
    let head = [patient.node(b"n_9Z"), 1].map(|value| word(NUM, value));
    let program = &mut patient.raw.program;
    program.extend(head);
    program.extend([COMP, TRUE, END].repeat(atoms - 1));
    program.extend(last);
    program.extend(vec![END; atoms - 1]);
    Some(())
}

pub fn definition(patient: &mut Patient) -> Option<()> {
    let (definition, at) = some_definition(patient)?;
    let end = patient.rules.span(definition.body).end;
    if patient.random.once_in(2) {
        patient.raw.program.extend_from_within(at..end);
    } else {
        patient.raw.program.drain(at..end);
    }
    Some(())
}

pub fn variables(patient: &mut Patient) -> Option<()> {
    let count = patient.raw.variables.len();
    let name = match patient.random.below(4) {
        0 => patient.some_name(),
        1 => patient.node(b"N_1z"),
        2 => patient.node(b"X"),
        _ => patient.node(b"a"),
    };
    let name = u32::from(name);
    match patient.random.below(8) {
        0 if count > 0 => {
            let at = patient.random.below(count);
            patient.raw.variables[at] = name;
        }
        1 if count > 1 => {
            let (one, other) = (patient.random.below(count), patient.random.below(count));
            patient.raw.variables[one] = patient.raw.variables[other];
        }
        2 if count > 1 => {
            let (one, other) = (patient.random.below(count), patient.random.below(count));
            patient.raw.variables.swap(one, other);
        }
        3 if count > 0 => {
            patient.raw.variables.pop();
        }
        4 => patient.raw.variables.push(name),
        5 => {
            // One that no node has.
            let nodes = patient.raw.cells.len() as u32;
            let values = [nodes, nodes + 1, 65_536, 0xff_ffff];
            let unknown = *patient.random.pick(&values);
            let at = patient.random.below(count.max(1));
            match patient.raw.variables.get_mut(at) {
                Some(old) => *old = unknown,
                None => patient.raw.variables.push(unknown),
            }
        }
        6 if count > 0 => {
            // Another spelling, right or wrong.
            let at = patient.random.below(count);
            let names: [&[u8]; 5] = [b"N_1z", b"nz", b"7", b"N-", &[b'N'; 33]];
            let name = *patient.random.pick(&names);
            patient.raw.variables[at] = patient.node(name).into();
        }
        _ => return as_many_variables(patient),
    }
    Some(())
}

/// 16 or 17 query variables, and as many locals in the first box.
fn as_many_variables(patient: &mut Patient) -> Option<()> {
    let count = patient.raw.variables.len();
    let wanted = patient.limit(QUERY_VARIABLES);
    let ands = |patient: &Patient| patient.goals.children(0).count();
    if ands(patient) != 1 || patient.goals.open(1) != AND || patient.goals.nodes.len() > 60 {
        return None;
    }
    // Numbers of others move up.
    let more = wanted.checked_sub(count)? as u16;
    for word in &mut patient.raw.config {
        if word.class == FREE && usize::from(word.value) >= count {
            word.value = word.value.wrapping_add(more);
        }
    }
    patient.raw.next += u32::from(more);
    let new = (count..wanted).map(|x| word(FREE, x as u16)).collect();
    patient.add_own(Side::Goals, 2, new);
    for number in count..wanted {
        let node = patient.node(format!("Q{number}").as_bytes());
        patient.raw.variables.push(node.into());
    }
    Some(())
}

pub fn next(patient: &mut Patient) -> Option<()> {
    let numbers = patient.raw.config.iter().filter(|w| w.class == FREE);
    let highest = numbers.map(|w| u32::from(w.value)).max().unwrap_or(0);
    let count = patient.raw.variables.len() as u32;
    let values = [
        highest,
        highest + 1,
        highest.saturating_sub(1),
        count,
        count.saturating_sub(1),
        0,
        65_535,
        65_536,
        65_536 + patient.raw.next,
    ];
    patient.raw.next = *patient.random.pick(&values);
    Some(())
}

pub fn cell(patient: &mut Patient) -> Option<()> {
    let count = patient.raw.cells.len();
    let at = patient.random.below(count);
    let other = patient.raw.cells[patient.random.below(count)];
    let old = patient.raw.cells[at];
    let values = [
        other,
        old.wrapping_add(1),
        old % 256 + 256 * at as u32,
        old % 256 + 256 * (at as u32 + 1),
        old ^ 32,
        patient.random.below(256) as u32,
        0,
    ];
    patient.raw.cells[at] = *patient.random.pick(&values);
    Some(())
}

/// Nodes that no name needs.
fn add_nodes(patient: &mut Patient, count: usize) {
    let mut there: std::collections::HashSet<u32> =
        patient.raw.cells[1..].iter().copied().collect();
    let most = patient.raw.cells.len() + count;
    while patient.raw.cells.len() < most {
        let parent = patient.random.below(patient.raw.cells.len()) as u32;
        let cell = 256 * parent + patient.random.below(256) as u32;
        if there.insert(cell) {
            patient.raw.cells.push(cell);
        }
    }
}

/// Nodes that no name needs, right or wrong, some or as many as may be.
pub fn nodes(patient: &mut Patient) -> Option<()> {
    let mut count = patient.random.between(1, 5);
    if patient.random.once_in(10) {
        let there = patient.raw.cells.len();
        count = patient.limit(NODES).checked_sub(there)?;
    }
    let first = patient.raw.cells.len() as u32;
    add_nodes(patient, count);
    let last = patient.raw.cells.len() - 1;
    match patient.random.below(6) {
        0 => patient.raw.cells[last] = 256 * last as u32,
        1 => patient.raw.cells[last] = patient.raw.cells[patient.random.below(first as usize)],
        2 => patient.raw.cells[0] = patient.random.between(1, 300) as u32,
        3 if patient.random.once_in(4) => patient.raw.cells.clear(),
        _ => {}
    }
    Some(())
}

/// The same names in another order, parents first.
pub fn other_order(patient: &mut Patient) -> Option<()> {
    let count = patient.raw.cells.len();
    let old = patient.raw.cells.clone();
    if (1..count).any(|node| (old[node] / 256) as usize >= node) {
        return None;
    }
    let mut new_of: Vec<Option<u32>> = vec![None; count];
    new_of[0] = Some(0);
    let mut cells = vec![0];
    while cells.len() < count {
        // One of the nodes whose parents are placed.
        let due: Vec<usize> = (1..count)
            .filter(|&n| new_of[n].is_none() && new_of[(old[n] / 256) as usize].is_some())
            .take(6)
            .collect();
        let node = *patient.random.pick(&due);
        let parent = new_of[(old[node] / 256) as usize].expect("placed");
        new_of[node] = Some(cells.len() as u32);
        cells.push(256 * parent + old[node] % 256);
    }
    patient.raw.cells = cells;
    // Numbers that no node has stay.
    let moved = |node: u32| match new_of.get(node as usize) {
        Some(new) => new.expect("placed"),
        None => node,
    };
    for name in &mut patient.raw.variables {
        *name = moved(*name);
    }
    for definition in &patient.definitions {
        let at = patient.rules.span(definition.body).start - 2;
        patient.raw.program[at].value = moved(definition.name.into()) as u16;
    }
    for side in [Side::Rules, Side::Goals] {
        for node in 0..patient.tree(side).nodes.len() {
            let at = patient.tree(side).span(node).start;
            let name = match patient.tree(side).open(node) {
                CALL => at + 1,
                APP => at + 2,
                _ => continue,
            };
            let old = patient.words(side)[name].value;
            patient.words(side)[name].value = moved(old.into()) as u16;
        }
    }
    Some(())
}
