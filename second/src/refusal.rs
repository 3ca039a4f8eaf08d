//! "What a call returns": the numbers that this checker hands back.
//! (8 and 9 speak of lent stores, which it does not have.)

/// A refusal; the discriminant is the number in document 01.
#[derive(Clone, Copy, Debug, PartialEq, Eq, PartialOrd, Ord)]
#[repr(u8)]
pub enum Refusal {
    /// program or steps over 16,384 bytes, query over 4,096
    TextTooLong = 1,
    /// text not of the grammar, name length included, counts and depth aside
    Grammar = 2,
    /// over 128 definitions, 8 parameters or arguments, 16 query variables, depth 32
    Counts = 3,
    /// one name and arity defined twice, a variable twice in a list
    Twice = 4,
    /// program atom without definition
    NoDefinition = 5,
    /// in a program, variable neither parameter nor hidden
    FreeVariable = 6,
    /// one choice, two operators
    TwoOperators = 7,
    /// rule not 1 to 14
    NoRule = 10,
    /// no such place; argument not 0, or in rule 12 no place
    NoPlace = 11,
    /// goal there of another kind than the rule takes
    OtherKind = 12,
    /// the rule's condition is false
    Condition = 13,
    /// fresh numbers would pass 65,534
    FreshNumbers = 14,
    /// new or starting configuration over 2,048 parts
    Parts = 15,
    /// no answer of that number, counted from 1
    NoAnswer = 16,
    /// answer text longer than the lent slice
    AnswerTooLong = 17,
    /// steps line not as described
    StepsLine = 18,
}

impl Refusal {
    /// The number in document 01.
    pub fn number(self) -> u32 {
        self as u32
    }
}
