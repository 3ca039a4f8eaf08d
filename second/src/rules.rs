//! The table of the fourteen rules, and their conditions.

use crate::config::{Config, Goal, Shape};
use crate::environment::Environment;
use crate::syntax::{Code, Operator, Statement};

/// "A table of the fourteen rules fixes the kind of place each takes."
#[derive(Clone, Copy, Debug, PartialEq, Eq)]
pub enum Kind {
    ConstraintAtom,
    ProgramAtom,
    Composition,
    Hiding,
    Choice,
    ChoiceBox,
    GuardedGoal,
    AndBox,
    /// an or-box that is a member of an or-box
    InnerOrBox,
    /// the top or-box, or one that is a guard: no rule takes it
    OuterOrBox,
}

impl Kind {
    const COUNT: usize = Kind::OuterOrBox as usize + 1;
}

/// "Rule 12 is the nondeterminate rule; the others are determinate."
#[derive(Clone, Copy, Debug, PartialEq, Eq)]
pub enum Mode {
    Determinate,
    Nondeterminate,
}

/// Which goal a rule rewrites: the one at its place, or the one around that.
/// "A rule rewrites the member (2, 5), the and-box (1, 3, 4, 6, 9, 10, 12), the
/// choice-box (7, 8, 11, 13) or the outer or-box (14)."
#[derive(Clone, Copy, Debug, PartialEq, Eq)]
pub enum Rewrites {
    Place,
    Parent,
}

/// The rules by name.
#[derive(Clone, Copy, Debug, PartialEq, Eq)]
pub enum Rule {
    ConstraintAtom,
    ProgramAtom,
    Composition,
    Hiding,
    Choice,
    Promotion,
    Condition,
    Commit,
    EnvironmentFailure,
    GoalFailure,
    GuardFailure,
    Splitting,
    Distribution,
    Flattening,
}

/// A row of the table.
#[derive(Clone, Copy, Debug)]
pub struct Row {
    pub rule: Rule,
    pub place: Kind,
    pub mode: Mode,
    pub rewrites: Rewrites,
}

const fn row(rule: Rule, place: Kind, rewrites: Rewrites) -> Row {
    let mode = match rule {
        Rule::Splitting => Mode::Nondeterminate,
        _ => Mode::Determinate,
    };
    Row {
        rule,
        place,
        mode,
        rewrites,
    }
}

/// The rules 1 to 14; rule n is row n - 1.
pub const TABLE: [Row; 14] = [
    row(Rule::ConstraintAtom, Kind::ConstraintAtom, Rewrites::Parent),
    row(Rule::ProgramAtom, Kind::ProgramAtom, Rewrites::Place),
    row(Rule::Composition, Kind::Composition, Rewrites::Parent),
    row(Rule::Hiding, Kind::Hiding, Rewrites::Parent),
    row(Rule::Choice, Kind::Choice, Rewrites::Place),
    row(Rule::Promotion, Kind::ChoiceBox, Rewrites::Parent),
    row(Rule::Condition, Kind::GuardedGoal, Rewrites::Parent),
    row(Rule::Commit, Kind::GuardedGoal, Rewrites::Parent),
    row(Rule::EnvironmentFailure, Kind::AndBox, Rewrites::Place),
    row(Rule::GoalFailure, Kind::ChoiceBox, Rewrites::Parent),
    row(Rule::GuardFailure, Kind::GuardedGoal, Rewrites::Parent),
    row(Rule::Splitting, Kind::ChoiceBox, Rewrites::Parent),
    row(Rule::Distribution, Kind::GuardedGoal, Rewrites::Parent),
    row(Rule::Flattening, Kind::InnerOrBox, Rewrites::Parent),
];

/// The determinate rules that take each kind of place, a bit for each row.
const DETERMINATE: [u16; Kind::COUNT] = {
    let mut found = [0; Kind::COUNT];
    let mut index = 0;
    while index < TABLE.len() {
        if matches!(TABLE[index].mode, Mode::Determinate) {
            found[TABLE[index].place as usize] |= 1 << index;
        }
        index += 1;
    }
    found
};

/// The rows of the determinate rules that take a kind of place.
pub fn determinate(kind: Kind) -> impl Iterator<Item = &'static Row> {
    let mut left = DETERMINATE[kind as usize];
    std::iter::from_fn(move || {
        let row = TABLE.get(left.trailing_zeros() as usize)?;
        left &= left - 1;
        Some(row)
    })
}

/// The row of a rule's number.
pub fn row_of(number: u32) -> Option<&'static Row> {
    TABLE.get((number as usize).checked_sub(1)?)
}

/// The kind of a goal.
pub fn kind(code: &Code, config: &Config, goal: Goal) -> Kind {
    match config.shape(goal) {
        Shape::Member(closure) => match code.statement(closure.statement) {
            Statement::Constraint(_) => Kind::ConstraintAtom,
            Statement::Call(..) => Kind::ProgramAtom,
            Statement::Composition(..) => Kind::Composition,
            Statement::Hiding(..) => Kind::Hiding,
            Statement::Choice(..) => Kind::Choice,
        },
        Shape::Choice(_) => Kind::ChoiceBox,
        Shape::Guarded(_) => Kind::GuardedGoal,
        Shape::And(_) => Kind::AndBox,
        Shape::Or => match config.parent(goal).map(|outer| config.shape(outer)) {
            Some(Shape::Or) => Kind::InnerOrBox,
            _ => Kind::OuterOrBox,
        },
    }
}

/// Who answers the questions about constraints that conditions put.
pub trait Judge {
    /// Whether a solved guard is quiet for its environment, its locals as V.
    fn quiet(&mut self, config: &Config, guard: Goal) -> bool;
    /// Whether an and-box's store and environment share a solution.
    fn satisfiable(&mut self, config: &Config, and: Goal) -> bool;
}

/// The condition of a determinate rule at a goal of the kind it takes.
pub fn condition(rule: Rule, config: &Config, goal: Goal, judge: &mut impl Judge) -> bool {
    match rule {
        Rule::ConstraintAtom
        | Rule::ProgramAtom
        | Rule::Composition
        | Rule::Hiding
        | Rule::Choice
        | Rule::Flattening => true,
        // "one guarded goal, guard solved; .. For `->` and `|` the guard is
        // quiet for that box's store and environment"
        Rule::Promotion => {
            config.children(goal) == 1
                && config.first(goal).is_some_and(|only| {
                    let guard = config.guard(only);
                    config.solved(guard).is_some()
                        && (config.shape(goal) == Shape::Choice(Operator::Wait)
                            || judge.quiet(config, guard))
                })
        }
        // "`->`, solved, quiet, something to its right"
        Rule::Condition => {
            config.after(goal).is_some()
                && operator(config, goal) == Some(Operator::Condition)
                && config.solved(config.guard(goal)).is_some()
                && judge.quiet(config, config.guard(goal))
        }
        // "`|`, solved, quiet, another beside it"
        Rule::Commit => {
            (config.after(goal).is_some() || config.before(goal).is_some())
                && operator(config, goal) == Some(Operator::Commit)
                && config.solved(config.guard(goal)).is_some()
                && judge.quiet(config, config.guard(goal))
        }
        // "its store and environment share no solution"
        Rule::EnvironmentFailure => !judge.satisfiable(config, goal),
        // "it is empty"
        Rule::GoalFailure => config.children(goal) == 0,
        // "its guard is failure": an or-box, "empty, it is failure"
        Rule::GuardFailure => {
            let guard = config.guard(goal);
            config.shape(guard) == Shape::Or && config.children(guard) == 0
        }
        // "guard is a non-empty or-box"
        Rule::Distribution => {
            let guard = config.guard(goal);
            config.shape(guard) == Shape::Or && config.children(guard) > 0
        }
        // The argument enters: see `splits` and `stability`.
        Rule::Splitting => false,
    }
}

/// The operator of the choice-box around a guarded goal.
fn operator(config: &Config, guarded: Goal) -> Option<Operator> {
    match config.shape(config.parent(guarded)?) {
        Shape::Choice(operator) => Some(operator),
        _ => None,
    }
}

/// Rule 12 but for its argument: "operator `?`, two or more guarded goals, the
/// first solved".
pub fn splits(config: &Config, choice: Goal) -> bool {
    config.shape(choice) == Shape::Choice(Operator::Wait)
        && config.children(choice) >= 2
        && config
            .first(choice)
            .is_some_and(|first| config.solved(config.guard(first)).is_some())
}

/// A judge that loads the environment for each question.
pub struct Afresh<'a>(pub &'a mut Environment);

impl Judge for Afresh<'_> {
    fn quiet(&mut self, config: &Config, guard: Goal) -> bool {
        let Shape::And(id) = config.shape(guard) else {
            return false;
        };
        // Nothing to meet is quiet whatever is around it, and "an environment
        // without solutions makes everything quiet".
        if config.and(id).store.is_empty() || !self.0.load(config, config.parent(guard)) {
            return true;
        }
        let mark = self.0.solver.mark();
        let told = self.0.enter(config, id, 1);
        self.0.solver.undo(mark);
        told.quiet
    }

    fn satisfiable(&mut self, config: &Config, and: Goal) -> bool {
        self.0.load(config, Some(and))
    }
}
