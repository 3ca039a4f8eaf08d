//! Spellings as small numbers, so that two names are compared at once.

use std::collections::HashMap;

/// A spelling: of a variable, a predicate or a constructor.
#[derive(Clone, Copy, Debug, PartialEq, Eq, Hash, PartialOrd, Ord)]
pub struct Name(pub u32);

/// All spellings met so far. "Names are compared byte for byte": equal numbers
/// stand for equal bytes. (A comparison by value would go into `number`.)
#[derive(Clone, Debug, Default)]
pub struct Names {
    numbers: HashMap<Box<[u8]>, Name>,
    spellings: Vec<Box<[u8]>>,
}

impl Names {
    /// The number of a spelling, a new one if it is met for the first time.
    pub fn number(&mut self, spelling: &[u8]) -> Name {
        if let Some(&name) = self.numbers.get(spelling) {
            return name;
        }
        let name = Name(self.spellings.len() as u32);
        self.spellings.push(spelling.into());
        self.numbers.insert(spelling.into(), name);
        name
    }

    /// The bytes of a name.
    pub fn spelling(&self, name: Name) -> &[u8] {
        &self.spellings[name.0 as usize]
    }

    /// How many spellings there are; every `Name` is below.
    pub fn len(&self) -> usize {
        self.spellings.len()
    }

    /// Whether no spelling was met yet.
    pub fn is_empty(&self) -> bool {
        self.spellings.is_empty()
    }
}
