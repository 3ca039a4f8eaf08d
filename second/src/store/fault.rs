//! Why a store is not well formed: one entry for each clause.

use std::collections::BTreeSet;

/// Where a statement or constraint stands.
#[derive(Clone, Copy, Debug, PartialEq, Eq, PartialOrd, Ord)]
pub enum Where {
    Program,
    Member,
    Body,
    Store,
}

/// What 2 to 7 say of a statement.
#[derive(Clone, Copy, Debug, PartialEq, Eq, PartialOrd, Ord)]
pub enum Trouble {
    /// 2: a name that is no constructor's, or no node of the table
    Spelling,
    /// 2: no hidden variable in a hiding
    EmptyHiding,
    /// 2: no clause in a choice
    EmptyChoice,
    /// 3: over 8 arguments
    Arguments,
    /// 3: no text of depth 32 reads as the statement
    Depth,
    /// 5: a program atom without definition
    NoDefinition,
    /// 6: a level that nothing binds
    Level,
}

/// The clauses that are one fault each: listed once, for the type and for `all`.
macro_rules! faults {
    ($($(#[$told:meta])* $plain:ident,)*) => {
        /// A clause that a store does not meet.
        #[derive(Clone, Copy, Debug, PartialEq, Eq, PartialOrd, Ord)]
        pub enum Fault {
            $($(#[$told])* $plain,)*
            /// "its program and statements would pass 2 to 7"
            Statement(Where, Trouble),
        }

        const PLAIN: &[Fault] = &[$(Fault::$plain),*];
    };
}

faults! {
    // The form.
    FormNumber,
    NodesCount,
    ProgramCount,
    VariablesCount,
    ConfigCount,
    /// Names and program have no room together.
    TogetherCount,
    UnusedProgram,
    UnusedVariables,
    UnusedConfig,
    BadProgramWord,
    BadConfigWord,
    /// The root's cell is not 0.
    Root,
    /// A node's parent is not below it.
    Parent,
    /// Two nodes have one name.
    NameTwice,
    /// A query variable's name is no node.
    VariableNode,
    NextOver,
    // Brackets and their order.
    ProgramShape,
    ConfigShape,
    // "its program and statements would pass 2 to 7"
    Definitions,
    Parameters,
    HeadSpelling,
    DefinedTwice,
    /// 6: a variable's number in a program
    NumberInProgram,
    /// rule 1 stores no `true`
    StoredTrue,
    /// The top is an and-box.
    Top,
    // Variables.
    LocalTwice,
    /// "locals do not interfere": one box inside the other
    InterferenceInside,
    /// .. or both in different members of an and-box
    InterferenceBeside,
    ScopeMember,
    ScopeStore,
    ScopeBody,
    VariableSpelling,
    VariableTwice,
    QueryNotLocal,
    QueryLocalElsewhere,
    NextQuery,
    NextLocal,
    NextMember,
    NextStore,
    NextBody,
    Parts,
}

use Fault::*;

impl Fault {
    /// Every clause.
    pub fn all() -> Vec<Fault> {
        use Trouble::*;
        let mut all = PLAIN.to_vec();
        for place in [Where::Program, Where::Member, Where::Body] {
            let troubles = [
                Spelling,
                EmptyHiding,
                EmptyChoice,
                Arguments,
                Depth,
                NoDefinition,
                Level,
            ];
            all.extend(troubles.map(|trouble| Statement(place, trouble)));
        }
        all.extend([Spelling, Arguments].map(|trouble| Statement(Where::Store, trouble)));
        all
    }

    /// Whether other clauses are not met either wherever this one is not. All
    /// boxes stand in one of the top's, where the query's variables are local,
    /// so that one of them elsewhere interferes; what stands in a member or a
    /// store is local around it, so that a local's number is too high as well.
    pub fn implied(self) -> bool {
        matches!(self, QueryLocalElsewhere | NextMember | NextStore)
    }
}

/// The clauses that a store does not meet.
#[derive(Clone, Debug, Default, PartialEq, Eq)]
pub struct Faults(pub BTreeSet<Fault>);

impl Faults {
    pub fn note(&mut self, fault: Fault) {
        self.0.insert(fault);
    }

    pub fn note_if(&mut self, wrong: bool, fault: Fault) {
        if wrong {
            self.note(fault);
        }
    }

    /// An error unless there are none.
    pub fn none(self) -> Result<(), Faults> {
        match self.0.is_empty() {
            true => Ok(()),
            false => Err(self),
        }
    }

    /// The only fault, which decides.
    pub fn alone(&self) -> Option<Fault> {
        match self.0.len() {
            1 => self.0.first().copied(),
            _ => None,
        }
    }
}
