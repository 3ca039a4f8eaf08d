//! Constraints over finite trees: "satisfiable" and "quiet".
//!
//! Variables known to be equal form a class; a class has at most one term, a
//! label with argument variables. Equal classes are merged and terms are never
//! expanded, so the work is nearly linear in the constraints. Every change is
//! noted on a trail and can be taken back.
//!
//! Constraints come in *levels*, a store at a time. Level 0 is the environment.
//! A variable has the level of the box it is local to, 0 if that box is outside.
//! A store told at level n is quiet for what was told before, with the variables
//! of level n as V, exactly when it can be met and while telling it
//! - no unbound class with a variable below level n got a term, and
//! - no two such classes became one.
//!
//! For a class touched so, two trees can be chosen against it; all others are
//! determined by the classes that are left unbound. The same with level 1 in
//! place of n says whether the stores told since level 0 are together quiet for
//! the environment, with all variables of level 1 and up as V.

use crate::config::{Constraint, Variable};
use crate::cycles::Search;
use crate::names::Name;

/// What telling a store showed.
#[derive(Clone, Copy, Debug, PartialEq, Eq)]
pub struct Told {
    /// There is a solution in finite trees.
    pub satisfiable: bool,
    /// It is quiet for all that was told before it.
    pub quiet: bool,
    /// It said nothing new about classes of level 0.
    pub quiet_outside: bool,
}

/// A state of the solver to go back to.
#[derive(Clone, Copy, Debug)]
pub struct Mark {
    version: u64,
    trail: usize,
    terms: usize,
    arguments: usize,
}

#[derive(Clone, Copy, Debug)]
pub(crate) struct Cell {
    /// The next variable on the way to the one that stands for the class.
    up: Variable,
    rank: u8,
    /// Met in a constraint told so far; else the class fields mean nothing.
    met: bool,
    /// False only while no term has a variable of the class as argument.
    pointed: bool,
    /// The lowest level of a variable of the class.
    level: u16,
    /// The level set by `own`, valid in the walk `owned_in`.
    own_level: u16,
    /// The class's term, counted from 1; 0 for none.
    pub(crate) term: u32,
    /// The length of the trail when the first variable of the class was met.
    pub(crate) oldest: u32,
    owned_in: u64,
    /// Last visit by the search for cycles.
    pub(crate) seen: u64,
}

#[derive(Clone, Copy, Debug)]
pub(crate) struct Term {
    label: Name,
    pub(crate) start: u32,
    pub(crate) length: u32,
}

#[derive(Clone, Copy, Debug)]
enum Change {
    Met(Variable),
    Bound(Variable),
    Merged {
        child: Variable,
        root: Variable,
        level: u16,
        rank: u8,
        term: u32,
        oldest: u32,
    },
}

/// The classes and terms of the constraints told so far.
#[derive(Clone, Debug, Default)]
pub struct Solver {
    cells: Vec<Cell>,
    pub(crate) terms: Vec<Term>,
    pub(crate) arguments: Vec<Variable>,
    trail: Vec<Change>,
    walk: u64,
    /// A number for the present state, different from those of all others.
    pub(crate) version: u64,
    versions: u64,
    pub(crate) search: Search,
    /// While telling: pairs still to be merged, classes where a cycle may close.
    pairs: Vec<(Variable, Variable)>,
    pub(crate) touched: Vec<Variable>,
    pub(crate) telling: Telling,
}

#[derive(Clone, Copy, Debug, Default)]
pub(crate) struct Telling {
    level: u16,
    /// The length of the trail when it began.
    pub(crate) base: u32,
    loud: bool,
    loud_outside: bool,
    /// How many classes from before got arguments. If any, cycles may run
    /// through old terms.
    pub(crate) disturbed: u32,
    /// `Cell::oldest` of the last of these, which tells it from the others.
    pub(crate) last_disturbed: u32,
    /// Two classes from before became one.
    pub(crate) joined: bool,
}

const UNMET: Cell = Cell {
    up: Variable(0),
    rank: 0,
    met: false,
    pointed: false,
    level: 0,
    own_level: 0,
    term: 0,
    oldest: 0,
    owned_in: 0,
    seen: 0,
};

impl Solver {
    /// Makes room for variables below `next`.
    pub fn reserve(&mut self, next: u32) {
        if self.cells.len() < next as usize {
            self.cells.resize(next as usize, UNMET);
        }
    }

    /// Begins a new walk: no variable has a level but 0 until `own` says so.
    pub fn begin_walk(&mut self) {
        self.walk += 1;
    }

    /// Says that variables are local to a box at a level of this walk.
    pub fn own<'a>(&mut self, locals: impl IntoIterator<Item = &'a Variable>, level: u16) {
        let walk = self.walk;
        for &local in locals {
            let cell = self.cell_mut(local);
            cell.own_level = level;
            cell.owned_in = walk;
        }
    }

    /// The present state.
    pub fn mark(&self) -> Mark {
        Mark {
            version: self.version,
            trail: self.trail.len(),
            terms: self.terms.len(),
            arguments: self.arguments.len(),
        }
    }

    /// Takes back all that was told since `mark`.
    pub fn undo(&mut self, mark: Mark) {
        while self.trail.len() > mark.trail {
            match self.trail.pop().expect("longer than the mark") {
                Change::Met(variable) => self.cell_mut(variable).met = false,
                Change::Bound(root) => self.cell_mut(root).term = 0,
                Change::Merged {
                    child,
                    root,
                    level,
                    rank,
                    term,
                    oldest,
                } => {
                    self.cell_mut(child).up = child;
                    let cell = self.cell_mut(root);
                    (cell.level, cell.rank) = (level, rank);
                    (cell.term, cell.oldest) = (term, oldest);
                }
            }
        }
        self.terms.truncate(mark.terms);
        self.arguments.truncate(mark.arguments);
        self.version = mark.version;
    }

    /// Adds a store at a level. If it has no solution with what was told before,
    /// the state is of use for `undo` only.
    pub fn tell<'a>(
        &mut self,
        store: impl IntoIterator<Item = &'a Constraint>,
        level: u16,
    ) -> Told {
        self.telling = Telling {
            level,
            base: self.trail.len() as u32,
            ..Telling::default()
        };
        self.touched.clear();
        let satisfiable = store.into_iter().all(|c| self.add(c)) && !self.cyclic();
        self.versions += 1;
        self.version = self.versions;
        Told {
            satisfiable,
            quiet: satisfiable && !self.telling.loud,
            quiet_outside: satisfiable && !self.telling.loud_outside,
        }
    }

    /// The variable that stands for a variable's class.
    pub fn class(&self, variable: Variable) -> Variable {
        let mut at = variable;
        if !self.cell(at).met {
            return at;
        }
        while self.cell(at).up != at {
            at = self.cell(at).up;
        }
        at
    }

    /// The label and arguments of a class, if it has any.
    pub fn term(&self, class: Variable) -> Option<(Name, &[Variable])> {
        let cell = self.cell(class);
        if !cell.met || cell.term == 0 {
            return None;
        }
        let term = self.terms[cell.term as usize - 1];
        let arguments = term.start as usize..(term.start + term.length) as usize;
        Some((term.label, &self.arguments[arguments]))
    }

    pub(crate) fn cell(&self, variable: Variable) -> &Cell {
        &self.cells[usize::from(variable.0)]
    }

    pub(crate) fn cell_mut(&mut self, variable: Variable) -> &mut Cell {
        &mut self.cells[usize::from(variable.0)]
    }

    /// The class of a variable in a constraint that is being told.
    fn meet(&mut self, variable: Variable) -> Variable {
        if self.cell(variable).met {
            return self.class(variable);
        }
        let oldest = self.trail.len() as u32;
        let walk = self.walk;
        let cell = self.cell_mut(variable);
        cell.up = variable;
        cell.rank = 0;
        cell.met = true;
        cell.pointed = false;
        cell.seen = 0;
        cell.level = if cell.owned_in == walk {
            cell.own_level
        } else {
            0
        };
        cell.term = 0;
        cell.oldest = oldest;
        self.trail.push(Change::Met(variable));
        variable
    }

    /// Adds one constraint; false when it clashes.
    fn add(&mut self, constraint: &Constraint) -> bool {
        match constraint {
            Constraint::Fail => false,
            Constraint::Same(left, right) => {
                self.pairs.push((*left, *right));
                self.merge_pairs()
            }
            Constraint::Built(left, label, arguments) => {
                let root = self.meet(*left);
                let term = self.cell(root).term;
                if term == 0 {
                    self.bind(root, *label, arguments.as_slice());
                    return true;
                }
                let old = self.terms[term as usize - 1];
                let arguments = arguments.as_slice();
                if old.label != *label || old.length as usize != arguments.len() {
                    return false;
                }
                let old = &self.arguments[old.start as usize..][..arguments.len()];
                let pairs = old.iter().copied().zip(arguments.iter().copied());
                self.pairs.extend(pairs);
                self.merge_pairs()
            }
        }
    }

    /// Gives a term to a class without one.
    fn bind(&mut self, root: Variable, label: Name, arguments: &[Variable]) {
        self.gets_term(root, arguments.len() as u32);
        let start = self.arguments.len() as u32;
        self.arguments.extend_from_slice(arguments);
        self.terms.push(Term {
            label,
            start,
            length: arguments.len() as u32,
        });
        let number = self.terms.len() as u32;
        self.cell_mut(root).term = number;
        self.trail.push(Change::Bound(root));
        let pointed = self.cell(root).pointed;
        let mut closes = false;
        for &argument in arguments {
            let inner = self.meet(argument);
            let cell = self.cell_mut(inner);
            cell.pointed = true;
            // From the root itself, or on through a term to the root.
            closes |= inner == root || (pointed && cell.term != 0);
        }
        if closes {
            self.touched.push(root);
        }
    }

    /// Notes that an unbound class gets a term with so many arguments.
    fn gets_term(&mut self, root: Variable, arguments: u32) {
        let Cell { level, oldest, .. } = *self.cell(root);
        self.telling.loud |= level < self.telling.level;
        self.telling.loud_outside |= level == 0;
        if oldest < self.telling.base && arguments > 0 {
            self.telling.disturbed += 1;
            self.telling.last_disturbed = oldest;
        }
    }

    /// Merges the pairs that are due and those that follow; false on a clash.
    fn merge_pairs(&mut self) -> bool {
        while let Some((left, right)) = self.pairs.pop() {
            let left = self.meet(left);
            let right = self.meet(right);
            if left != right && !self.merge(left, right) {
                self.pairs.clear();
                return false;
            }
        }
        true
    }

    /// Merges two classes.
    fn merge(&mut self, left: Variable, right: Variable) -> bool {
        let (a, b) = (*self.cell(left), *self.cell(right));
        self.telling.joined |= a.oldest.max(b.oldest) < self.telling.base;
        // A cycle closes on a way from the term to the variable.
        let closes = match (a.term, b.term) {
            (0, 0) => {
                let higher = a.level.max(b.level);
                self.telling.loud |= higher < self.telling.level;
                self.telling.loud_outside |= higher == 0;
                false
            }
            (0, y) => {
                self.gets_term(left, self.terms[y as usize - 1].length);
                a.pointed
            }
            (x, 0) => {
                self.gets_term(right, self.terms[x as usize - 1].length);
                b.pointed
            }
            (x, y) => {
                let (x, y) = (self.terms[x as usize - 1], self.terms[y as usize - 1]);
                if x.label != y.label || x.length != y.length {
                    return false;
                }
                for offset in 0..x.length {
                    let one = self.arguments[(x.start + offset) as usize];
                    let other = self.arguments[(y.start + offset) as usize];
                    self.pairs.push((one, other));
                }
                // If no variable gets a term by it they were one tree.
                false
            }
        };
        let (root, child) = if a.rank < b.rank {
            (right, left)
        } else {
            (left, right)
        };
        let old = *self.cell(root);
        self.trail.push(Change::Merged {
            child,
            root,
            level: old.level,
            rank: old.rank,
            term: old.term,
            oldest: old.oldest,
        });
        self.cell_mut(child).up = root;
        let cell = self.cell_mut(root);
        cell.pointed |= a.pointed || b.pointed;
        cell.level = a.level.min(b.level);
        cell.oldest = a.oldest.min(b.oldest);
        cell.term = if old.term != 0 {
            old.term
        } else {
            a.term.max(b.term)
        };
        if a.rank == b.rank {
            cell.rank += 1;
        }
        if closes {
            self.touched.push(root);
        }
        true
    }
}
