//! Words of three bytes, a class and a value with its low byte first, and
//! statements as words: the tables in crates/layout/specs/Layout.antt and
//! crates/store_words/specs/Boxes.antt.

use crate::config::Variable;
use crate::names::Name;
use crate::syntax::{
    Clause, Code, ConstraintAtom, Level, Operator, Program, Run, Statement, StatementId,
};

/// A word.
#[derive(Clone, Copy, Debug, PartialEq, Eq, Hash)]
pub struct Word {
    pub class: u8,
    pub value: u16,
}

pub const fn word(class: u8, value: u16) -> Word {
    Word { class, value }
}

/// The word that closes a bracket.
pub const END: Word = word(0, 0);

// The classes of words. Those of the last two open a bracket.
pub const FREE: u8 = 1;
pub const LEVEL: u8 = 2;
pub const NUM: u8 = 3;
pub const PLACE: u8 = 4;
pub const INNER: u8 = 5;

// The kinds of places.
pub const OR: Word = word(PLACE, 0);
pub const AND: Word = word(PLACE, 1);
pub const GUARDED: Word = word(PLACE, 2);
pub const MEMBER: Word = word(PLACE, 3);
pub const WAIT: Word = word(PLACE, 4);
pub const COND: Word = word(PLACE, 5);
pub const COMMIT: Word = word(PLACE, 6);

// The sorts of other brackets.
pub const LOCALS: Word = word(INNER, 0);
pub const STORE: Word = word(INNER, 1);
pub const TRUE: Word = word(INNER, 2);
pub const FAIL: Word = word(INNER, 3);
pub const EQ: Word = word(INNER, 4);
pub const APP: Word = word(INNER, 5);
pub const CALL: Word = word(INNER, 6);
pub const COMP: Word = word(INNER, 7);
pub const HIDE: Word = word(INNER, 8);
pub const CLAUSE: Word = word(INNER, 9);
pub const ASK_WAIT: Word = word(INNER, 10);
pub const ASK_COND: Word = word(INNER, 11);
pub const ASK_COMMIT: Word = word(INNER, 12);

impl Word {
    pub fn opens(self) -> bool {
        self.class == PLACE || self.class == INNER
    }

    /// Whether three bytes can be this word: others are no word at all.
    pub fn is_one(self) -> bool {
        match self.class {
            0 => self.value == 0,
            FREE | LEVEL | NUM => true,
            PLACE => self.value <= COMMIT.value,
            INNER => self.value <= ASK_COMMIT.value,
            _ => false,
        }
    }

    pub fn bytes(self) -> [u8; 3] {
        let [low, high] = self.value.to_le_bytes();
        [self.class, low, high]
    }

    pub fn of_bytes(bytes: &[u8]) -> Word {
        word(bytes[0], u16::from_le_bytes([bytes[1], bytes[2]]))
    }
}

/// The bytes of words.
pub fn bytes(words: &[Word]) -> Vec<u8> {
    words.iter().flat_map(|word| word.bytes()).collect()
}

/// The word that opens a choice statement, and that of a choice-box.
pub fn ask(operator: Operator) -> Word {
    match operator {
        Operator::Wait => ASK_WAIT,
        Operator::Condition => ASK_COND,
        Operator::Commit => ASK_COMMIT,
    }
}

pub fn choice_box(operator: Operator) -> Word {
    match operator {
        Operator::Wait => WAIT,
        Operator::Condition => COND,
        Operator::Commit => COMMIT,
    }
}

/// Writes statements as words.
pub struct Writer<'a> {
    program: &'a Program,
    code: &'a Code,
    /// The number of each spelling.
    names: &'a [u32],
    pub out: Vec<Word>,
}

/// The variables of the lowest levels; levels above are bound.
type Frame<'a> = &'a [Variable];

impl<'a> Writer<'a> {
    pub fn new(program: &'a Program, names: &'a [u32]) -> Writer<'a> {
        Writer {
            program,
            code: &program.code,
            names,
            out: Vec::new(),
        }
    }

    pub fn put(&mut self, class: u8, value: u16) {
        self.out.push(word(class, value));
    }

    pub fn name(&mut self, name: Name) {
        self.put(NUM, self.names[name.0 as usize] as u16);
    }

    fn variable(&mut self, level: Level, frame: Frame) {
        match frame.get(usize::from(level.0)) {
            Some(variable) => self.put(FREE, variable.0),
            None => self.put(LEVEL, level.0 - frame.len() as u16),
        }
    }

    fn arguments(&mut self, list: Run, frame: Frame) {
        for &level in &self.code.arguments[list.range()] {
            self.variable(level, frame);
        }
    }

    /// The definitions of the program, each with its name and how many
    /// parameters it has.
    pub fn definitions(&mut self, arities: &[usize]) {
        let program = self.program;
        for (id, &body) in program.bodies.iter().enumerate() {
            self.name(program.heads[id]);
            self.put(NUM, arities[id] as u16);
            self.statement(body, &[]);
        }
    }

    /// Calls itself from bracket to bracket, not along commas.
    pub fn statement(&mut self, mut id: StatementId, frame: Frame) {
        let mut compositions = 0;
        while let Statement::Composition(left, right) = self.code.statement(id) {
            self.out.push(COMP);
            self.statement(left, frame);
            compositions += 1;
            id = right;
        }
        match self.code.statement(id) {
            Statement::Composition(..) => unreachable!("none is left"),
            Statement::Constraint(atom) => self.constraint(atom, frame),
            Statement::Call(definition, list) => {
                self.out.push(CALL);
                self.name(self.program.heads[definition.0 as usize]);
                self.arguments(list, frame);
            }
            Statement::Hiding(hidden, inner) => {
                self.out.push(HIDE);
                self.put(NUM, hidden);
                self.statement(inner, frame);
            }
            Statement::Choice(operator, clauses) => {
                self.out.push(ask(operator));
                for &clause in &self.code.clauses[clauses.range()] {
                    self.clause(clause, frame);
                }
            }
        }
        for _ in 0..=compositions {
            self.out.push(END);
        }
    }

    fn constraint(&mut self, atom: ConstraintAtom, frame: Frame) {
        match atom {
            ConstraintAtom::True => self.out.push(TRUE),
            ConstraintAtom::Fail => self.out.push(FAIL),
            ConstraintAtom::Same(left, right) => {
                self.out.push(EQ);
                self.variable(left, frame);
                self.variable(right, frame);
            }
            ConstraintAtom::Built(left, name, list) => {
                self.out.push(APP);
                self.variable(left, frame);
                self.name(name);
                self.arguments(list, frame);
            }
        }
    }

    fn clause(&mut self, clause: Clause, frame: Frame) {
        self.out.push(CLAUSE);
        self.put(NUM, clause.hidden);
        self.statement(clause.guard, frame);
        self.statement(clause.body, frame);
        self.out.push(END);
    }
}

/// How many parameters each definition has.
pub fn arities(program: &Program) -> Vec<usize> {
    let mut arities = vec![0; program.heads.len()];
    for (&(_, arity), id) in &program.defined {
        arities[id.0 as usize] = arity;
    }
    arities
}
