//! Words as trees of brackets, without recursion: a list of brackets, parent
//! before child. Each bracket has its own words first and then the brackets in
//! it.

use crate::words::*;
use std::ops::Range;

/// A bracket.
#[derive(Clone, Copy, Debug, PartialEq, Eq)]
pub struct Node {
    pub open: Word,
    /// Where its words begin and end; its own words are at `at + 1 .. inner`.
    pub at: u32,
    pub inner: u32,
    pub close: u32,
    /// The bracket around it, or itself.
    pub parent: u32,
    /// The next bracket that is not inside it.
    pub end: u32,
}

/// Brackets, parent before child.
#[derive(Clone, Debug, Default, PartialEq, Eq)]
pub struct Tree {
    pub words: Vec<Word>,
    pub nodes: Vec<Node>,
}

/// A definition: the node of its name, its parameters, and its body.
#[derive(Clone, Copy, Debug, PartialEq, Eq)]
pub struct Definition {
    pub name: u16,
    pub parameters: u16,
    pub body: usize,
}

impl Tree {
    fn new(words: &[Word]) -> Tree {
        Tree {
            words: words.to_vec(),
            nodes: Vec::new(),
        }
    }

    /// Adds the bracket that begins at a word and all in it; where it ends.
    fn bracket(&mut self, start: usize) -> Option<usize> {
        let mut open: Vec<usize> = Vec::new();
        for at in start..self.words.len() {
            let word = self.words[at];
            if word.opens() {
                let index = self.nodes.len();
                if let Some(&outer) = open.last() {
                    let outer = &mut self.nodes[outer];
                    outer.inner = outer.inner.min(at as u32);
                }
                self.nodes.push(Node {
                    open: word,
                    at: at as u32,
                    inner: u32::MAX,
                    close: 0,
                    parent: open.last().copied().unwrap_or(index) as u32,
                    end: 0,
                });
                open.push(index);
            } else if word == END {
                let end = self.nodes.len() as u32;
                let node = &mut self.nodes[open.pop()?];
                (node.close, node.end) = (at as u32, end);
                node.inner = node.inner.min(at as u32);
                if open.is_empty() {
                    return Some(at + 1);
                }
            } else if self.nodes[*open.last()?].inner != u32::MAX {
                // A word of its own behind a bracket.
                return None;
            }
        }
        None
    }

    /// The words of a bracket's own.
    pub fn own(&self, node: usize) -> &[Word] {
        let Node { at, inner, .. } = self.nodes[node];
        &self.words[at as usize + 1..inner as usize]
    }

    /// All words from a bracket's first to its last.
    pub fn span(&self, node: usize) -> Range<usize> {
        let Node { at, close, .. } = self.nodes[node];
        at as usize..close as usize + 1
    }

    pub fn open(&self, node: usize) -> Word {
        self.nodes[node].open
    }

    pub fn parent(&self, node: usize) -> usize {
        self.nodes[node].parent as usize
    }

    pub fn end(&self, node: usize) -> usize {
        self.nodes[node].end as usize
    }

    /// The brackets directly in a bracket.
    pub fn children(&self, node: usize) -> impl Iterator<Item = usize> + '_ {
        let end = self.end(node);
        let some = move |at: usize| (at < end).then_some(at);
        std::iter::successors(some(node + 1), move |&at| some(self.end(at)))
    }

    /// Whether a bracket holds what it may.
    fn shaped(&self, node: usize) -> bool {
        let own = self.own(node);
        let inside = || self.children(node).map(|child| self.open(child));
        let all = |kind: fn(Word) -> bool| own.is_empty() && inside().all(kind);
        let statements = |count: usize| inside().count() == count && inside().all(statement);
        let number = |words: &[Word]| matches!(words, [n] if n.class == NUM);
        match self.open(node) {
            OR => all(goal),
            AND => {
                let mut inside = inside();
                own.is_empty()
                    && inside.next() == Some(LOCALS)
                    && inside.next() == Some(STORE)
                    && inside.all(|open| open == MEMBER || choice_box(open))
            }
            GUARDED => {
                let mut inside = inside();
                own.is_empty()
                    && inside.next().is_some_and(goal)
                    && inside.next().is_some_and(statement)
                    && inside.next().is_none()
            }
            MEMBER => own.is_empty() && statements(1),
            WAIT | COND | COMMIT => all(|open| open == GUARDED),
            LOCALS => own.iter().all(|word| word.class == FREE) && inside().count() == 0,
            STORE => {
                // What is stored has numbers.
                let level = |word: &Word| word.class == LEVEL;
                all(atom) && !self.words[self.span(node)].iter().any(level)
            }
            TRUE | FAIL => own.is_empty() && inside().count() == 0,
            EQ => own.len() == 2 && variables(own) && inside().count() == 0,
            APP => {
                let shaped = |words: &[Word]| match words {
                    [left, name, list @ ..] => {
                        variables(&[*left]) && name.class == NUM && variables(list)
                    }
                    _ => false,
                };
                shaped(own) && inside().count() == 0
            }
            CALL => {
                let shaped = |words: &[Word]| match words {
                    [name, list @ ..] => name.class == NUM && variables(list),
                    _ => false,
                };
                shaped(own) && inside().count() == 0
            }
            COMP => own.is_empty() && statements(2),
            HIDE => number(own) && statements(1),
            CLAUSE => number(own) && statements(2),
            ASK_WAIT | ASK_COND | ASK_COMMIT => all(|open| open == CLAUSE),
            _ => false,
        }
    }

    fn all_shaped(&self) -> bool {
        (0..self.nodes.len()).all(|node| self.shaped(node))
    }
}

pub fn goal(open: Word) -> bool {
    open == OR || open == AND
}

pub fn choice_box(open: Word) -> bool {
    matches!(open, WAIT | COND | COMMIT)
}

pub fn atom(open: Word) -> bool {
    matches!(open, TRUE | FAIL | EQ | APP)
}

pub fn choice(open: Word) -> bool {
    matches!(open, ASK_WAIT | ASK_COND | ASK_COMMIT)
}

pub fn statement(open: Word) -> bool {
    atom(open) || choice(open) || matches!(open, CALL | COMP | HIDE)
}

fn variables(words: &[Word]) -> bool {
    let variable = |word: &Word| word.class == FREE || word.class == LEVEL;
    words.iter().all(variable)
}

/// A configuration: the top is an or-box or an and-box.
pub fn configuration(words: &[Word]) -> Option<Tree> {
    let mut tree = Tree::new(words);
    let whole = tree.bracket(0)? == words.len();
    (whole && goal(tree.open(0)) && tree.all_shaped()).then_some(tree)
}

/// A program: the definitions, and a tree that holds their bodies.
pub fn program(words: &[Word]) -> Option<(Vec<Definition>, Tree)> {
    let mut tree = Tree::new(words);
    let mut definitions = Vec::new();
    let mut at = 0;
    while at < words.len() {
        let [name, parameters] = *words.get(at..at + 2)? else {
            return None;
        };
        if name.class != NUM || parameters.class != NUM {
            return None;
        }
        definitions.push(Definition {
            name: name.value,
            parameters: parameters.value,
            body: tree.nodes.len(),
        });
        at = tree.bracket(at + 2)?;
    }
    let bodies = definitions.iter().all(|d| statement(tree.open(d.body)));
    (bodies && tree.all_shaped()).then_some((definitions, tree))
}
