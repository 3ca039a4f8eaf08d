//! What each name of the table is: "A name is a small letter and then letters,
//! digits and underscores, or digits alone; only constructors may be digits
//! alone. A variable begins with a capital and goes on like a name. Both have 1
//! to 32 bytes."

use crate::limits::NAME_BYTES;

#[derive(Clone, Copy, Debug, PartialEq, Eq)]
enum Begun {
    Nothing,
    Word,
    Digits,
    Variable,
    Other,
}

/// The names of a table, whose nodes come after their parents.
pub struct Spellings<'a> {
    cells: &'a [u32],
    names: Vec<(Begun, usize)>,
}

impl<'a> Spellings<'a> {
    pub fn new(cells: &'a [u32]) -> Spellings<'a> {
        let mut names = vec![(Begun::Nothing, 0)];
        for &cell in &cells[1..] {
            let (begun, length) = names[(cell / 256) as usize];
            let byte = cell as u8;
            let goes_on = byte.is_ascii_alphanumeric() || byte == b'_';
            let now = match begun {
                Begun::Nothing if byte.is_ascii_lowercase() => Begun::Word,
                Begun::Nothing if byte.is_ascii_uppercase() => Begun::Variable,
                Begun::Nothing | Begun::Digits if byte.is_ascii_digit() => Begun::Digits,
                Begun::Word | Begun::Variable if goes_on => begun,
                _ => Begun::Other,
            };
            names.push((now, length + 1));
        }
        Spellings { cells, names }
    }

    fn is(&self, node: u32, kinds: &[Begun]) -> bool {
        let found = self.names.get(node as usize);
        found.is_some_and(|(begun, length)| kinds.contains(begun) && *length <= NAME_BYTES)
    }

    pub fn constructor(&self, node: u32) -> bool {
        self.is(node, &[Begun::Word, Begun::Digits])
    }

    pub fn variable(&self, node: u32) -> bool {
        self.is(node, &[Begun::Variable])
    }

    /// "`true` and `fail` name no predicate"
    pub fn predicate(&self, node: u32) -> bool {
        let no_predicate = || matches!(&spelling(self.cells, node)[..], b"true" | b"fail");
        self.is(node, &[Begun::Word]) && !no_predicate()
    }
}

/// The bytes of a name.
pub fn spelling(cells: &[u32], node: u32) -> Vec<u8> {
    let mut bytes = Vec::new();
    let mut at = node;
    while at != 0 {
        let cell = cells[at as usize];
        bytes.push(cell as u8);
        at = cell / 256;
    }
    bytes.reverse();
    bytes
}
