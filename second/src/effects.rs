//! The effects of the fourteen rules, with what they add and take.

use crate::config::{AndId, Closure, Config, Constraint, Goal, Shape};
use crate::rules::Rule;
use crate::syntax::{Code, ConstraintAtom, Program, Statement};

/// What a step changes in number.
#[derive(Clone, Copy, Debug, Default)]
pub struct Growth {
    /// How many fresh variables it takes.
    pub fresh: u32,
    pub parts_more: usize,
    pub parts_fewer: usize,
}

/// The statement of a member.
fn member(config: &Config, goal: Goal) -> Closure {
    match config.shape(goal) {
        Shape::Member(closure) => closure,
        _ => unreachable!("the rule takes a member"),
    }
}

/// The body of a guarded goal.
fn body(config: &Config, goal: Goal) -> Closure {
    match config.shape(goal) {
        Shape::Guarded(closure) => closure,
        _ => unreachable!("the rule takes a guarded goal"),
    }
}

/// The contents of an and-box.
fn and_id(config: &Config, goal: Goal) -> AndId {
    match config.shape(goal) {
        Shape::And(id) => id,
        _ => unreachable!("the rule takes an and-box"),
    }
}

fn parent(config: &Config, goal: Goal) -> Goal {
    config.parent(goal).expect("not the top")
}

/// The parts of the goals at some places.
fn weigh(code: &Code, config: &Config, places: std::ops::Range<usize>) -> usize {
    let goals = &config.order[places];
    goals.iter().map(|&goal| config.weight(code, goal)).sum()
}

/// The places of all to the right of the goal at a place.
fn right_of(config: &Config, at: usize) -> std::ops::Range<usize> {
    let start = config.end(at);
    let mut end = start;
    let mut next = config.after(config.order[at]);
    while let Some(goal) = next {
        end = config.end(end);
        next = config.after(goal);
    }
    start..end
}

/// What a step would add and take, its kind and condition being right.
pub fn growth(program: &Program, config: &Config, rule: Rule, at: usize) -> Growth {
    let code = &program.code;
    let goal = config.order[at];
    let statement = || code.statement(member(config, goal).statement);
    let mut growth = Growth::default();
    match rule {
        Rule::ConstraintAtom => {
            let nothing = Statement::Constraint(ConstraintAtom::True);
            growth.parts_fewer = usize::from(statement() == nothing);
        }
        Rule::ProgramAtom => {
            if let Statement::Call(definition, _) = statement() {
                let body = program.bodies[definition.0 as usize];
                growth.parts_more = code.parts(body) as usize;
                growth.parts_fewer = 1;
            }
        }
        Rule::Composition => growth.parts_fewer = 1,
        Rule::Hiding => {
            if let Statement::Hiding(hidden, _) = statement() {
                growth.fresh = u32::from(hidden);
                growth.parts_fewer = 1;
            }
        }
        Rule::Choice => {
            // Each clause becomes a guarded goal and an and-box.
            if let Statement::Choice(_, clauses) = statement() {
                let clauses = &code.clauses[clauses.range()];
                growth.fresh = clauses.iter().map(|c| u32::from(c.hidden)).sum();
                growth.parts_more = clauses.len();
            }
        }
        Rule::Promotion => growth.parts_fewer = 3,
        Rule::Condition => growth.parts_fewer = weigh(code, config, right_of(config, at)),
        Rule::Commit => {
            let choice = config.parent_place(at);
            let all = weigh(code, config, choice + 1..config.end(choice));
            growth.parts_fewer = all - weigh(code, config, at..config.end(at));
        }
        Rule::EnvironmentFailure | Rule::GoalFailure => {
            let and = if rule == Rule::GoalFailure {
                config.parent_place(at)
            } else {
                at
            };
            growth.parts_more = 1;
            growth.parts_fewer = weigh(code, config, and..config.end(and));
        }
        Rule::GuardFailure => growth.parts_fewer = weigh(code, config, at..at + 2),
        Rule::Splitting => {
            // One or-box more, and a second copy of all but the guarded goals.
            let and = config.parent_place(at);
            let all = weigh(code, config, and..config.end(and));
            growth.parts_more = 1 + all - weigh(code, config, at + 1..config.end(at));
        }
        Rule::Distribution => {
            growth.parts_more = 1 + code.parts(body(config, goal).statement) as usize;
        }
        Rule::Flattening => growth.parts_fewer = 1,
    }
    growth
}

/// Rewrites the configuration by a step that is allowed and within the limits.
pub fn apply(program: &Program, config: &mut Config, rule: Rule, at: usize) {
    let goal = config.order[at];
    match rule {
        Rule::ConstraintAtom => constraint_atom(&program.code, config, at, goal),
        Rule::ProgramAtom => program_atom(program, config, goal),
        Rule::Composition => composition(&program.code, config, at, goal),
        Rule::Hiding => hiding(&program.code, config, goal),
        Rule::Choice => choice(&program.code, config, at, goal),
        Rule::Promotion => promotion(config, at, goal),
        Rule::Condition => remove(config, right_of(config, at)),
        Rule::Commit => commit(config, at),
        Rule::EnvironmentFailure => fail(config, at),
        Rule::GoalFailure => fail(config, config.parent_place(at)),
        Rule::GuardFailure => remove(config, at..at + 2),
        Rule::Splitting => splitting(config, at),
        Rule::Distribution => distribution(config, at, goal),
        Rule::Flattening => {
            config.splice_children(goal);
            config.free(goal);
            config.reshape(at, 1, 0);
        }
    }
}

/// "moved to the end of its and-box's store; `true` adds nothing, `fail` a
/// constraint nothing meets"
fn constraint_atom(code: &Code, config: &mut Config, at: usize, goal: Goal) {
    let closure = member(config, goal);
    let id = and_id(config, parent(config, goal));
    if let Statement::Constraint(atom) = code.statement(closure.statement) {
        let constraint = match atom {
            ConstraintAtom::True => None,
            ConstraintAtom::Fail => Some(Constraint::Fail),
            ConstraintAtom::Same(left, right) => Some(Constraint::Same(
                config.variable(closure, left),
                config.variable(closure, right),
            )),
            ConstraintAtom::Built(left, label, list) => Some(Constraint::Built(
                config.variable(closure, left),
                label,
                config.arguments(code, closure, list),
            )),
        };
        if let Some(constraint) = constraint {
            config.add_constraint(id, constraint);
        }
    }
    config.unlink(goal);
    config.free(goal);
    config.reshape(at, 1, 0);
}

/// "replaced by its definition's body, arguments for parameters"
fn program_atom(program: &Program, config: &mut Config, goal: Goal) {
    let closure = member(config, goal);
    if let Statement::Call(definition, list) = program.code.statement(closure.statement) {
        let arguments = config.arguments(&program.code, closure, list);
        let body = program.bodies[definition.0 as usize];
        let body = config.closure(body, arguments.as_slice().iter().copied());
        config.set(goal, Shape::Member(body));
    }
}

/// "its two parts become members in its position"
fn composition(code: &Code, config: &mut Config, at: usize, goal: Goal) {
    let closure = member(config, goal);
    if let Statement::Composition(left, right) = code.statement(closure.statement) {
        let (left, right) = (
            config.same_frame(closure, left),
            config.same_frame(closure, right),
        );
        config.set(goal, Shape::Member(left));
        let right = config.new_goal(Shape::Member(right));
        config.insert_after(goal, right);
        config.reshape(at + 1, 0, 1);
        config.order[at + 1] = right;
    }
}

/// "fresh locals join the and-box, its statement takes its position"
fn hiding(code: &Code, config: &mut Config, goal: Goal) {
    let closure = member(config, goal);
    let id = and_id(config, parent(config, goal));
    if let Statement::Hiding(hidden, inner) = code.statement(closure.statement) {
        let fresh = config.fresh(hidden);
        let inner = config.opened(code, closure, hidden, inner);
        config.add_locals(id, fresh);
        config.set(goal, Shape::Member(inner));
    }
}

/// "becomes a choice-box; each guard an and-box with fresh locals and empty
/// store"
fn choice(code: &Code, config: &mut Config, at: usize, goal: Goal) {
    let closure = member(config, goal);
    if let Statement::Choice(operator, clauses) = code.statement(closure.statement) {
        config.set(goal, Shape::Choice(operator));
        config.reshape(at + 1, 0, 3 * clauses.length as usize);
        let mut place = at + 1;
        for clause in &code.clauses[clauses.range()] {
            let fresh = config.fresh(clause.hidden);
            let guard = config.opened(code, closure, clause.hidden, clause.guard);
            let body = config.same_frame(guard, clause.body);
            let id = config.new_and();
            config.add_locals(id, fresh);
            let guarded = config.new_goal(Shape::Guarded(body));
            let and = config.new_goal(Shape::And(id));
            let member = config.new_goal(Shape::Member(guard));
            config.append(goal, guarded);
            config.append(guarded, and);
            config.append(and, member);
            config.order[place..place + 3].copy_from_slice(&[guarded, and, member]);
            place += 3;
        }
    }
}

/// "its store goes to the end of the and-box's, its locals join, its body takes
/// the choice-box's position"
fn promotion(config: &mut Config, at: usize, goal: Goal) {
    let guarded = config.order[at + 1];
    let guard = config.order[at + 2];
    let body = body(config, guarded);
    let outer = and_id(config, parent(config, goal));
    let inner = and_id(config, guard);
    config.add_contents(inner, outer);
    config.free(guarded);
    config.free(guard);
    config.forget_children(goal);
    config.set(goal, Shape::Member(body));
    config.reshape(at + 1, 2, 0);
}

/// Takes out the goals at a range of places: neighbours with all inside them.
fn remove(config: &mut Config, places: std::ops::Range<usize>) {
    let mut at = places.start;
    while at < places.end {
        let end = config.end(at);
        config.unlink(config.order[at]);
        at = end;
    }
    for at in places.clone() {
        config.free(config.order[at]);
    }
    config.reshape(places.start, places.len(), 0);
}

/// "all others go"
fn commit(config: &mut Config, at: usize) {
    remove(config, right_of(config, at));
    let choice = config.parent_place(at);
    remove(config, choice + 1..at);
}

/// "becomes failure": an empty or-box in its position.
fn fail(config: &mut Config, at: usize) {
    let goal = config.order[at];
    let end = config.end(at);
    for inner in at + 1..end {
        config.free(config.order[inner]);
    }
    config.free_and(and_id(config, goal));
    config.set(goal, Shape::Or);
    config.forget_children(goal);
    config.reshape(at + 1, end - at - 1, 0);
}

/// "the and-box becomes an or-box of two copies, with the first alone and with
/// the rest". The old and-box is kept as the second; the first guarded goal
/// moves to the first.
fn splitting(config: &mut Config, at: usize) {
    let and = config.parent_place(at);
    let second = config.order[and];
    let end = config.end(and);
    let rest = config.end(at + 1);
    let after = config.end(at);
    let either = config.new_goal(Shape::Or);
    config.replace(second, either);

    // The copy: the and-box, all before the choice-box, the choice-box, the
    // first guarded goal itself, all after the choice-box.
    let mut order = Vec::with_capacity(2 * (end - and));
    order.push(either);
    for place in (and..=at).chain(after..end) {
        let old = config.order[place];
        let to = if place == and {
            either
        } else {
            config.copy_of(parent(config, old))
        };
        let copy = config.copy_goal(old);
        config.append(to, copy);
        order.push(copy);
        if place == at {
            order.extend_from_slice(&config.order[at + 1..rest]);
        }
    }
    let first = config.order[at + 1];
    let guard = config.guard(first);
    config.stamp_anew(and_id(config, guard));
    config.unlink(first);
    config.append(config.copy_of(config.order[at]), first);
    config.append(either, second);
    order.extend_from_slice(&config.order[and..=at]);
    order.extend_from_slice(&config.order[rest..end]);
    config.reshape(and, end - and, order.len());
    config.order[and..and + order.len()].copy_from_slice(&order);
}

/// "its first part, then an or-box of the rest, each with the body"
fn distribution(config: &mut Config, at: usize, goal: Goal) {
    let rest = config.order[at + 1];
    let first = config.order[at + 2];
    let first_end = config.end(at + 2);
    let second = config.new_goal(Shape::Guarded(body(config, goal)));
    config.unlink(first);
    config.replace(rest, first);
    config.insert_after(goal, second);
    config.append(second, rest);
    // [goal, rest, first .., ..] becomes [goal, first .., second, rest, ..].
    config.reshape(first_end, 0, 1);
    config.order.copy_within(at + 2..first_end, at + 1);
    config.order[first_end - 1] = second;
    config.order[first_end] = rest;
}
