//! The limits of document 01, each in one place.

/// Refusal 1: bytes of a program text.
pub const PROGRAM_BYTES: usize = 16_384;
/// Refusal 1: bytes of a query text.
pub const QUERY_BYTES: usize = 4_096;
/// Refusal 1: bytes of a steps text.
pub const STEPS_BYTES: usize = 16_384;
/// "Both have 1 to 32 bytes": names and variables, else refusal 2.
pub const NAME_BYTES: usize = 32;
/// Refusal 3: definitions of a program.
pub const DEFINITIONS: usize = 128;
/// Refusal 3: parameters of a definition, arguments of an atom or constructor.
pub const ARGUMENTS: usize = 8;
/// Refusal 3: different variables free in a query.
pub const QUERY_VARIABLES: usize = 16;
/// Refusal 3: brackets of statements open at once.
pub const DEPTH: usize = 32;
/// "It lends 4,096 bytes per answer": the slice that `runcheck` lends.
pub const ANSWER_BYTES: usize = 4_096;
/// "numbers stay at or below 65,534": the highest variable, else refusal 14.
pub const LAST_VARIABLE: u32 = 65_534;
/// "A configuration has at most 2,048": parts, else refusal 15.
pub const PARTS: usize = 2_048;

/// The two limits that a step can meet. Tests lower them to meet them often.
#[derive(Clone, Copy, Debug, PartialEq, Eq)]
pub struct Limits {
    pub parts: usize,
    pub last_variable: u32,
}

impl Limits {
    /// The limits of document 01.
    pub const PUBLISHED: Limits = Limits {
        parts: PARTS,
        last_variable: LAST_VARIABLE,
    };
}
