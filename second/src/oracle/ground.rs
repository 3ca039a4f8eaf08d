//! Verdicts on constraints, tried on trees.
//!
//! A found solution refutes "no solution"; a claimed solution is built and put
//! into the constraints; a claimed "quiet" is tried on all assignments of small
//! trees, and a claimed "not quiet" is shown by one assignment.

use super::logic::{quiet, Con, Substitution, Term};
use crate::config::{Arguments, Constraint, Variable};
use crate::names::Names;
use crate::random::Random;
use crate::solver::Solver;
use std::collections::BTreeSet;
use std::rc::Rc;

type Assignment = Vec<Option<Term>>;

fn leaf(label: &str) -> Term {
    Term::Tree(label.into(), vec![])
}

/// The trees that are tried: two leaves and all trees of two levels over them.
fn small_trees() -> Vec<Term> {
    let leaves = [leaf("a"), leaf("b")];
    let mut trees = leaves.to_vec();
    for x in &leaves {
        trees.push(Term::Tree("f".into(), vec![x.clone()]));
        for y in &leaves {
            trees.push(Term::Tree("f".into(), vec![x.clone(), y.clone()]));
        }
    }
    trees
}

/// Whether a constraint holds; nothing when a variable has no tree yet.
fn holds(con: &Con, assignment: &Assignment) -> Option<bool> {
    let value = |v: &u32| assignment[*v as usize].as_ref();
    match con {
        Con::Fail => Some(false),
        Con::Same(x, y) => Some(value(x)? == value(y)?),
        Con::Built(x, label, list) => match value(x)? {
            Term::Tree(name, inner) if name == label && inner.len() == list.len() => {
                let mut all = true;
                for (tree, argument) in inner.iter().zip(list) {
                    all &= value(argument)? == tree;
                }
                Some(all)
            }
            _ => Some(false),
        },
    }
}

/// Calls `found` on every assignment of `trees` to the unset variables among
/// `variables` under which no constraint is false, until it says stop.
fn enumerate(
    constraints: &[Con],
    trees: &[Term],
    variables: &[u32],
    assignment: &mut Assignment,
    found: &mut dyn FnMut(&Assignment) -> bool,
) -> bool {
    if constraints
        .iter()
        .any(|c| holds(c, assignment) == Some(false))
    {
        return true;
    }
    let Some((&first, rest)) = variables.split_first() else {
        return found(assignment);
    };
    for tree in trees {
        assignment[first as usize] = Some(tree.clone());
        if !enumerate(constraints, trees, rest, assignment, found) {
            return false;
        }
    }
    assignment[first as usize] = None;
    true
}

/// A tree for a term: what is left open becomes a leaf of its own.
fn grounded(term: &Term, open: &dyn Fn(u32) -> Term, look: &dyn Fn(&Term) -> Term) -> Term {
    match look(term) {
        Term::Var(x) => open(x),
        Term::Tree(label, list) => {
            let list = list.iter().map(|t| grounded(t, open, look)).collect();
            Term::Tree(label, list)
        }
    }
}

/// An assignment to the unset variables, by substitution, that makes all
/// constraints true.
fn extension(constraints: &[Con], assignment: &Assignment) -> Option<Assignment> {
    let mut substitution = Substitution::default();
    for (number, tree) in assignment.iter().enumerate() {
        if let Some(tree) = tree {
            substitution.unify(&Term::Var(number as u32), tree);
        }
    }
    if !substitution.add_all(constraints) {
        return None;
    }
    let value = |v: usize| {
        let look = |term: &Term| substitution.outermost(term);
        Some(grounded(&Term::Var(v as u32), &|_| leaf("a"), &look))
    };
    Some((0..assignment.len()).map(value).collect())
}

/// A random environment over the outer variables and a random constraint over
/// all, the locals being the last ones.
struct Case {
    outer: u32,
    all: u32,
    environment: Vec<Con>,
    constraint: Vec<Con>,
}

fn random_constraint(random: &mut Random, variables: u32) -> Con {
    let mut any = || random.below(variables as usize) as u32;
    let (x, y, z) = (any(), any(), any());
    match random.below(12) {
        0 => Con::Built(x, "a".into(), vec![]),
        1 => Con::Built(x, "b".into(), vec![]),
        2..=5 => Con::Same(x, y),
        6..=8 => Con::Built(x, "f".into(), vec![y]),
        9 | 10 => Con::Built(x, "f".into(), vec![y, z]),
        _ if random.once_in(4) => Con::Fail,
        _ => Con::Same(x, z),
    }
}

fn random_case(random: &mut Random) -> Case {
    let outer = random.between(1, 3) as u32;
    let all = outer + random.below(3) as u32;
    let mut some = |most: usize, variables: u32| -> Vec<Con> {
        let count = random.below(most + 1);
        let each = |_| random_constraint(random, variables);
        (0..count).map(each).collect()
    };
    Case {
        outer,
        all,
        environment: some(3, outer),
        constraint: some(4, all),
    }
}

pub(crate) fn to_fast(cons: &[Con], names: &mut Names) -> Vec<Constraint> {
    let variable = |v: &u32| Variable(*v as u16);
    let each = |con: &Con| match con {
        Con::Fail => Constraint::Fail,
        Con::Same(x, y) => Constraint::Same(variable(x), variable(y)),
        Con::Built(x, label, list) => {
            let list: Vec<_> = list.iter().map(variable).collect();
            let label = names.number(label.as_bytes());
            Constraint::Built(variable(x), label, Arguments::new(&list))
        }
    };
    cons.iter().map(each).collect()
}

/// The assignment that the solver's classes describe; what is left open gets a
/// leaf of its own.
fn described(solver: &Solver, names: &Names, count: u32) -> Assignment {
    let look = |term: &Term| {
        let Term::Var(x) = term else {
            return term.clone();
        };
        let class = solver.class(Variable(*x as u16));
        match solver.term(class) {
            None => Term::Var(u32::from(class.0)),
            Some((label, list)) => {
                let label = String::from_utf8_lossy(names.spelling(label));
                let list = list.iter().map(|v| Term::Var(u32::from(v.0))).collect();
                Term::Tree(Rc::from(label.as_ref()), list)
            }
        }
    };
    let open = |class: u32| leaf(&format!("a leaf of its own {class}"));
    let value = |v| Some(grounded(&Term::Var(v), &open, &look));
    (0..count).map(value).collect()
}

/// Solvable or not, as claimed for constraints that were told.
fn try_satisfiable(
    claimed: bool,
    all: &[Con],
    count: u32,
    solver: &Solver,
    names: &Names,
) -> Result<(), &'static str> {
    if claimed {
        let built = described(solver, names, count);
        let good = all.iter().all(|c| holds(c, &built) == Some(true));
        return good.then_some(()).ok_or("the solution built is none");
    }
    let variables: Vec<u32> = (0..count).collect();
    let mut assignment = vec![None; count as usize];
    let none = enumerate(
        all,
        &small_trees(),
        &variables,
        &mut assignment,
        &mut |_| false,
    );
    none.then_some(()).ok_or("a solution was found")
}

/// Quiet or not, as claimed, when the environment has a solution and the solver
/// was told the environment alone.
fn try_quiet(
    claimed: bool,
    case: &Case,
    solver: &Solver,
    names: &Names,
) -> Result<(), &'static str> {
    let outer: Vec<u32> = (0..case.outer).collect();
    let locals: Vec<u32> = (case.outer..case.all).collect();
    let mut assignment = vec![None; case.all as usize];
    if claimed {
        let mut extends = |assignment: &Assignment| {
            extension(&case.constraint, assignment).is_some_and(|whole| {
                let mut cons = case.constraint.iter().chain(&case.environment);
                let kept = outer
                    .iter()
                    .all(|&v| whole[v as usize] == assignment[v as usize]);
                kept && cons.all(|c| holds(c, &whole) == Some(true))
            })
        };
        let trees = small_trees();
        let quiet = enumerate(
            &case.environment,
            &trees,
            &outer,
            &mut assignment,
            &mut extends,
        );
        return quiet.then_some(()).ok_or("an assignment is against quiet");
    }
    // One assignment against it: all that the environment leaves open differs.
    let built = described(solver, names, case.outer);
    assignment[..case.outer as usize].clone_from_slice(&built);
    let environment = &case.environment;
    if environment
        .iter()
        .any(|c| holds(c, &assignment) != Some(true))
    {
        return Err("the assignment does not satisfy the environment");
    }
    if extension(&case.constraint, &assignment).is_some() {
        return Err("the assignment against quiet extends");
    }
    let trees = small_trees();
    let none = enumerate(
        &case.constraint,
        &trees,
        &locals,
        &mut assignment,
        &mut |_| false,
    );
    none.then_some(())
        .ok_or("the assignment extends by small trees")
}

/// Checks the verdicts on one random case; hands back what is wrong.
pub fn check(random: &mut Random) -> Result<(), String> {
    let mut solver = Solver::default();
    let mut names = Names::default();
    solver.reserve(8);
    // What is told and taken back must leave no trace.
    solver.begin_walk();
    let mark = solver.mark();
    for _ in 0..random.below(3) {
        let other = random_case(random);
        solver.own(&[Variable(random.below(8) as u16)], 1);
        solver.tell(&to_fast(&other.constraint, &mut names), 1);
        solver.undo(mark);
    }
    let case = random_case(random);
    let said = |what: &str| {
        let Case {
            outer,
            all,
            environment,
            constraint,
        } = &case;
        format!("{what}: outer {outer} of {all}, {environment:?}, {constraint:?}")
    };
    let environment = to_fast(&case.environment, &mut names);
    let constraint = to_fast(&case.constraint, &mut names);
    solver.begin_walk();
    let first = solver.tell(&environment, 0).satisfiable;
    try_satisfiable(first, &case.environment, case.outer, &solver, &names).map_err(said)?;
    let locals: BTreeSet<u32> = (case.outer..case.all).collect();
    let slow = quiet(&locals, &case.environment, &case.constraint);
    if !first {
        return slow.then_some(()).ok_or_else(|| said("slow: not quiet"));
    }
    let before = solver.clone();
    let own: Vec<_> = locals.iter().map(|&v| Variable(v as u16)).collect();
    solver.own(&own, 1);
    let told = solver.tell(&constraint, 1);
    let all = [&case.environment[..], &case.constraint[..]].concat();
    try_satisfiable(told.satisfiable, &all, case.all, &solver, &names).map_err(said)?;
    try_quiet(told.quiet, &case, &before, &names).map_err(said)?;
    if slow != told.quiet || told.quiet != told.quiet_outside {
        return Err(said("fast and slow differ on quiet"));
    }
    if Substitution::solve(&all).is_some() != told.satisfiable {
        return Err(said("fast and slow differ on satisfiable"));
    }
    Ok(())
}
