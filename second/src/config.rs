//! Configurations: boxes, guarded goals and members, with their places.
//!
//! Goals are nodes of a pool, linked to parent, neighbours and children. Beside
//! the links, `order` holds the nodes in the order of places, "parent before
//! child, left to right", and is patched by each step, so that a place is found
//! at once and the places of a goal are one range.

use crate::chain::{Chain, Notes, Pool};
use crate::names::Name;
use crate::syntax::{Code, Operator, Query, StatementId};

/// A place: the number of a box, guarded goal or and-box member.
#[derive(Clone, Copy, Debug, PartialEq, Eq, PartialOrd, Ord, Hash)]
pub struct Place(pub u32);

/// A variable: "variable numbers never" change.
#[derive(Clone, Copy, Debug, PartialEq, Eq, PartialOrd, Ord, Hash)]
pub struct Variable(pub u16);

/// A goal in the pool. Numbers of goals that went are used again.
#[derive(Clone, Copy, Debug, PartialEq, Eq, Hash)]
pub struct Goal(pub(crate) u16);

/// The number of an and-box's contents in their own pool.
#[derive(Clone, Copy, Debug, PartialEq, Eq)]
pub struct AndId(pub(crate) u16);

/// A statement with the variables its levels stand for.
#[derive(Clone, Copy, Debug, PartialEq, Eq)]
pub struct Closure {
    pub statement: StatementId,
    /// Where its frame begins in `Config::frames`.
    pub(crate) frame: u32,
}

/// What a goal is. A guarded goal's only child is its guard.
#[derive(Clone, Copy, Debug, PartialEq, Eq)]
pub enum Shape {
    Or,
    And(AndId),
    Choice(Operator),
    /// with its body
    Guarded(Closure),
    /// a statement that is a member of an and-box
    Member(Closure),
}

/// A stored constraint; a stored `true` does not exist.
#[derive(Clone, Copy, Debug, PartialEq, Eq)]
pub enum Constraint {
    Fail,
    Same(Variable, Variable),
    Built(Variable, Name, Arguments),
}

/// The arguments of a constructor.
#[derive(Clone, Copy, Debug, PartialEq, Eq)]
pub struct Arguments {
    pub(crate) length: u8,
    pub(crate) list: [Variable; crate::limits::ARGUMENTS],
}

impl Arguments {
    /// At most eight arguments.
    pub fn new(arguments: &[Variable]) -> Arguments {
        let mut list = [Variable(0); crate::limits::ARGUMENTS];
        list[..arguments.len()].copy_from_slice(arguments);
        Arguments {
            length: arguments.len() as u8,
            list,
        }
    }

    pub fn as_slice(&self) -> &[Variable] {
        &self.list[..usize::from(self.length)]
    }
}

/// The contents of an and-box besides its members.
#[derive(Clone, Copy, Debug)]
pub struct AndBox {
    /// In `Config::locals`.
    pub locals: Chain,
    /// In `Config::constraints`; they are only ever added at the end.
    pub store: Chain,
    /// No two and-boxes of a run have the same stamp.
    pub stamp: u64,
}

/// No goal: the end of a list of children, or what is around the top.
pub(crate) const NONE: Goal = Goal(u16::MAX);

#[derive(Clone, Copy, Debug)]
pub(crate) struct Node {
    pub shape: Shape,
    pub parent: Goal,
    pub before: Goal,
    pub after: Goal,
    pub first: Goal,
    pub last: Goal,
    pub children: u16,
}

/// A configuration.
#[derive(Clone, Debug)]
pub struct Config {
    pub(crate) nodes: Vec<Node>,
    pub(crate) free_nodes: Vec<Goal>,
    pub(crate) ands: Vec<AndBox>,
    pub(crate) free_ands: Vec<AndId>,
    /// The local variables and the constraints of all and-boxes.
    pub locals: Pool<Variable>,
    pub constraints: Pool<Constraint>,
    /// All goals in the order of their places.
    pub(crate) order: Vec<Goal>,
    /// The variables that levels stand for, frame after frame.
    pub(crate) frames: Vec<Variable>,
    /// The length of `frames` at which unused frames are dropped next, and the
    /// least such length.
    pub(crate) frames_full: usize,
    pub(crate) frames_least: usize,
    pub(crate) stamps: u64,
    /// The and-boxes whose stores grew, one after another.
    pub(crate) grown: Notes<AndId>,
    /// Scratch: the copy of each goal that was copied.
    pub(crate) copies: Vec<Goal>,
    /// Its parts.
    pub parts: usize,
    /// The next fresh variable's number.
    pub next: u32,
}

/// Pools may grow to this, or twice what is in use, before they are tidied.
const TIDY: usize = 1 << 14;

impl Config {
    /// "The start is an or-box with one and-box, whose local variables are the
    /// query's and whose one member is the query."
    pub fn start(query: &Query) -> Config {
        let mut config = Config::empty(query.variables.len() as u32);
        let top = config.new_goal(Shape::Or);
        let id = config.new_and();
        config.add_locals(id, 0..query.variables.len() as u16);
        let and = config.new_goal(Shape::And(id));
        let frame = (0..crate::limits::QUERY_VARIABLES as u16).map(Variable);
        let closure = config.closure(query.statement, frame);
        let member = config.new_goal(Shape::Member(closure));
        config.append(top, and);
        config.append(and, member);
        config.order.extend([top, and, member]);
        config.count_parts(&query.program.code);
        config
    }

    /// No goals yet.
    pub(crate) fn empty(next: u32) -> Config {
        Config {
            nodes: Vec::new(),
            free_nodes: Vec::new(),
            ands: Vec::new(),
            free_ands: Vec::new(),
            locals: Pool::new(TIDY),
            constraints: Pool::new(TIDY),
            order: Vec::new(),
            frames: Vec::new(),
            frames_full: TIDY,
            frames_least: TIDY,
            stamps: 0,
            grown: Notes::new(),
            copies: Vec::new(),
            parts: 0,
            next,
        }
    }

    pub(crate) fn count_parts(&mut self, code: &Code) {
        self.parts = self.order.iter().map(|&g| self.weight(code, g)).sum();
    }

    // Looking.

    /// The top or-box.
    pub fn top(&self) -> Goal {
        self.order[0]
    }

    /// The goal at a place.
    pub fn at(&self, place: Place) -> Option<Goal> {
        self.order.get(place.0 as usize).copied()
    }

    /// How many places there are.
    pub fn places(&self) -> usize {
        self.order.len()
    }

    pub fn shape(&self, goal: Goal) -> Shape {
        self.nodes[usize::from(goal.0)].shape
    }

    pub fn parent(&self, goal: Goal) -> Option<Goal> {
        some(self.nodes[usize::from(goal.0)].parent)
    }

    /// The goal to its left, if any.
    pub fn before(&self, goal: Goal) -> Option<Goal> {
        some(self.nodes[usize::from(goal.0)].before)
    }

    /// The goal to its right, if any.
    pub fn after(&self, goal: Goal) -> Option<Goal> {
        some(self.nodes[usize::from(goal.0)].after)
    }

    pub fn first(&self, goal: Goal) -> Option<Goal> {
        some(self.nodes[usize::from(goal.0)].first)
    }

    pub fn children(&self, goal: Goal) -> usize {
        usize::from(self.nodes[usize::from(goal.0)].children)
    }

    pub fn and(&self, id: AndId) -> &AndBox {
        &self.ands[usize::from(id.0)]
    }

    /// The local variables of an and-box, the last first.
    pub fn locals_of(&self, id: AndId) -> impl Iterator<Item = &Variable> {
        self.locals.iter(self.and(id).locals)
    }

    /// The constraints of an and-box, the last first.
    pub fn store_of(&self, id: AndId) -> impl Iterator<Item = &Constraint> {
        self.constraints.iter(self.and(id).store)
    }

    /// The and-box contents of a goal that is an and-box without members: "with
    /// no members it is solved".
    pub fn solved(&self, goal: Goal) -> Option<&AndBox> {
        match self.shape(goal) {
            Shape::And(id) if self.children(goal) == 0 => Some(self.and(id)),
            _ => None,
        }
    }

    /// The guard of a guarded goal.
    pub fn guard(&self, guarded: Goal) -> Goal {
        self.nodes[usize::from(guarded.0)].first
    }

    /// The parts of a goal without those of the goals in it: "one for every
    /// box, guarded goal, .. stored constraint, and local .. variable", and
    /// those of the statement in it.
    pub fn weight(&self, code: &Code, goal: Goal) -> usize {
        match self.shape(goal) {
            Shape::Or | Shape::Choice(_) => 1,
            Shape::And(id) => 1 + self.and(id).locals.len() + self.and(id).store.len(),
            Shape::Guarded(body) => 1 + code.parts(body.statement) as usize,
            Shape::Member(closure) => code.parts(closure.statement) as usize,
        }
    }

    /// The end of the places of the goal whose place is `at`.
    pub fn end(&self, at: usize) -> usize {
        let mut awaited = 1;
        let mut end = at;
        while awaited > 0 {
            awaited += self.children(self.order[end]);
            awaited -= 1;
            end += 1;
        }
        end
    }

    /// The place of the parent of the goal whose place is `at`.
    pub fn parent_place(&self, at: usize) -> usize {
        let parent = self.nodes[usize::from(self.order[at].0)].parent;
        let before = self.order[..at].iter().rposition(|&goal| goal == parent);
        before.expect("parent before child")
    }
}

pub(crate) fn some(goal: Goal) -> Option<Goal> {
    (goal != NONE).then_some(goal)
}
