//! Texts as the words and numbers of docs/READER.md, to compare with the
//! verified reader: names numbered by the nodes of a trie, statements as words
//! of three bytes, parents first.

use crate::config::Variable;
use crate::limits::QUERY_VARIABLES;
use crate::names::Name;
use crate::reader::{read_program, read_query};
use crate::refusal::Refusal;
use crate::syntax::Query;
use crate::words::{arities, bytes, Writer};
use std::collections::HashMap;

/// What a program and a query come to.
#[derive(Clone, Debug, Default, PartialEq, Eq)]
pub struct Laid {
    /// Definitions, words of the program, query variables, words of the query,
    /// nodes of the names.
    pub counts: [u32; 5],
    /// For each node but the root: its parent, and the byte that leads to it.
    pub nodes: Vec<(u32, u8)>,
    /// The name and the parameters of each definition.
    pub heads: Vec<(u32, usize)>,
    /// The numbers of the query variables' names.
    pub order: Vec<u32>,
    /// The words of the program and of the query.
    pub rules: Vec<u8>,
    pub goal: Vec<u8>,
}

/// Reads two texts and lays them out.
pub fn laid(program: &[u8], query: &[u8]) -> Result<Laid, Refusal> {
    let program = read_program(program)?;
    Ok(lay(&read_query(&program, query)?))
}

/// The bytes that `read_cases` prints.
pub fn printed(program: &[u8], query: &[u8]) -> Vec<u8> {
    match laid(program, query) {
        Err(refusal) => format!("refusal {}\n", refusal.number()).into_bytes(),
        Ok(laid) => laid.bytes(),
    }
}

impl Laid {
    /// The counts, the numbers of the query variables' names, and the words.
    pub fn bytes(&self) -> Vec<u8> {
        let mut bytes: Vec<u8> = self.counts.iter().flat_map(|n| n.to_le_bytes()).collect();
        for &number in &self.order {
            bytes.extend((number as u16).to_le_bytes());
        }
        bytes.extend(&self.rules);
        bytes.extend(&self.goal);
        bytes
    }
}

fn lay(query: &Query) -> Laid {
    let program = &query.program;
    let (trie, names) = Trie::of_query(query);
    let arities = arities(program);
    let heads = program.heads.iter().map(|head| names[head.0 as usize]);
    let heads: Vec<_> = heads.zip(arities.iter().copied()).collect();
    let mut rules = Writer::new(program, &names);
    rules.definitions(&arities);
    let free: Vec<_> = (0..QUERY_VARIABLES as u16).map(Variable).collect();
    let mut goal = Writer::new(program, &names);
    goal.statement(query.statement, &free);
    let (rules, goal) = (bytes(&rules.out), bytes(&goal.out));
    let order: Vec<u32> = query
        .variables
        .iter()
        .map(|v| names[v.0 as usize])
        .collect();
    Laid {
        counts: [
            heads.len() as u32,
            rules.len() as u32 / 3,
            order.len() as u32,
            goal.len() as u32 / 3,
            trie.nodes.len() as u32 + 1,
        ],
        nodes: trie.nodes,
        heads,
        order,
        rules,
        goal,
    }
}

/// Names as nodes: each prefix that is met for the first time is the next one.
#[derive(Default)]
pub struct Trie {
    found: HashMap<(u32, u8), u32>,
    pub nodes: Vec<(u32, u8)>,
}

impl Trie {
    /// The names of a query and its program, and the number of each: `true` and
    /// `fail`, then spellings by first occurrence, the query's after the
    /// program's.
    pub fn of_query(query: &Query) -> (Trie, Vec<u32>) {
        let names = &query.program.names;
        let mut trie = Trie::default();
        trie.number(b"true");
        trie.number(b"fail");
        let number = |name| trie.number(names.spelling(Name(name)));
        let numbers = (0..names.len() as u32).map(number).collect();
        (trie, numbers)
    }

    pub fn number(&mut self, name: &[u8]) -> u32 {
        name.iter().fold(0, |parent, &byte| {
            let nodes = &mut self.nodes;
            *self.found.entry((parent, byte)).or_insert_with(|| {
                nodes.push((parent, byte));
                nodes.len() as u32
            })
        })
    }
}

#[cfg(test)]
mod tests {
    use super::*;

    #[test]
    fn names_are_nodes_by_first_occurrence() {
        let laid = laid(b"", b"Ab = true, B = Abc, A = t.").expect("a query");
        assert_eq!(laid.counts, [0, 0, 4, 16, 13]);
        let nodes = [(0, b'A'), (9, b'b'), (0, b'B'), (10, b'c')];
        assert_eq!(laid.nodes[8..], nodes);
        assert_eq!(laid.order, [10, 11, 12, 9]);
        let words = [
            [5, 7, 0],
            [5, 5, 0],
            [1, 0, 0],
            [3, 4, 0],
            [0, 0, 0],
            [5, 7, 0],
            [5, 4, 0],
            [1, 1, 0],
            [1, 2, 0],
            [0, 0, 0],
            [5, 5, 0],
            [1, 3, 0],
            [3, 1, 0],
            [0, 0, 0],
            [0, 0, 0],
            [0, 0, 0],
        ];
        assert_eq!(laid.goal, words.concat());
    }

    #[test]
    fn definitions_with_hiding_and_choice() {
        let text = b"p(X) := (Y : (Z : X = Y -> p(Z))).";
        let laid = laid(text, b"(K : p(K)).").expect("texts");
        assert_eq!(laid.heads, [(9, 1)]);
        let rules = [
            [3, 9, 0],
            [3, 1, 0],
            [5, 8, 0],
            [3, 1, 0],
            [5, 11, 0],
            [5, 9, 0],
            [3, 1, 0],
            [5, 4, 0],
            [2, 0, 0],
            [2, 1, 0],
            [0, 0, 0],
            [5, 6, 0],
            [3, 9, 0],
            [2, 2, 0],
            [0, 0, 0],
            [0, 0, 0],
            [0, 0, 0],
            [0, 0, 0],
        ];
        assert_eq!(laid.rules, rules.concat());
        let goal = [
            [5, 8, 0],
            [3, 1, 0],
            [5, 6, 0],
            [3, 9, 0],
            [2, 0, 0],
            [0, 0, 0],
            [0, 0, 0],
        ];
        assert_eq!(laid.goal, goal.concat());
        assert_eq!(printed(b"p := q.", b"true."), b"refusal 5\n");
    }
}
