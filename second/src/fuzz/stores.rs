//! Random stores, right and damaged, with the verdict on each.

use super::{gen, spoil, walk};
use crate::checker::Checker;
use crate::config::Place;
use crate::oracle::formed as slow;
use crate::random::Random;
use crate::reader::{read_program, read_query};
use crate::steps::Step;
use crate::store::fault::{Fault, Faults};
use crate::store::form::{Raw, LENGTH};
use crate::store::formed::parts;
use crate::store::{judge, write, State};
use std::collections::BTreeMap;

/// A store and what is said of it.
pub struct Case<'a> {
    /// The seed of `one` that makes it, and how many come before it there.
    pub seed: u64,
    pub index: usize,
    /// What was done to the store of a run.
    pub damage: &'static str,
    pub bytes: &'a [u8],
    /// The state that it holds, or why 9 is due.
    pub verdict: Result<State, Faults>,
}

impl Case<'_> {
    /// Which one it is, for people.
    pub fn label(&self) -> String {
        format!("seed {}, number {}, {}", self.seed, self.index, self.damage)
    }
}

type Visit<'a> = &'a mut dyn FnMut(&Case) -> Result<(), String>;

/// At least `count` stores from one seed, until a visit ends with an error.
pub fn stores(seed: u64, count: u64, visit: Visit) -> Result<(), String> {
    let mut seeds = Random::new(seed);
    let mut done = 0;
    while done < count {
        one(seeds.next(), &mut |case| {
            done += 1;
            visit(case)
        })?;
    }
    Ok(())
}

/// How many damaged stores each store of a run gives.
const DAMAGED: usize = 30;

/// A random run, the store after some of its steps, and this store damaged.
pub fn one(seed: u64, visit: Visit) -> Result<(), String> {
    let mut random = Random::new(seed);
    let random = &mut random;
    let large = random.once_in(100);
    let start = if large {
        long_run(random)
    } else {
        start(random)
    };
    let Some((mut checker, cells)) = start else {
        return Ok(());
    };
    let mut bytes = vec![0; LENGTH];
    let mut index = 0;
    for _ in 0..random.between(1, 3) {
        for _ in 0..random.below(25) {
            if large {
                break;
            }
            let Some(step) = walk::allowed_step(random, &mut checker) else {
                break;
            };
            checker.step(step).expect("it was listed");
        }
        let right = write::raw(&checker, &cells);
        let mut show = |bytes: &[u8], damage: &'static str| {
            index += 1;
            visit(&Case {
                seed,
                index: index - 1,
                damage,
                bytes,
                verdict: judge(bytes),
            })
        };
        right.write(&mut bytes);
        show(&bytes, "none")?;
        for _ in 0..DAMAGED {
            if random.once_in(6) {
                right.write(&mut bytes);
                let damage = spoil::spoil_bytes(random, &mut bytes);
                show(&bytes, damage)?;
            } else {
                let (raw, damage) = spoil::spoil(random, &right);
                raw.write(&mut bytes);
                show(&bytes, damage)?;
            }
        }
    }
    Ok(())
}

/// A random run at its start, and its table of names.
fn start(random: &mut Random) -> Option<(Checker, Vec<u32>)> {
    let (rules, query) = gen::texts(random);
    let program = read_program(rules.as_bytes()).ok()?;
    let query = read_query(&program, query.as_bytes()).ok()?;
    let cells = write::start_table(&query);
    Some((Checker::start(query).ok()?, cells))
}

/// A run that goes far, in depth or in breadth, and its table of names.
fn long_run(random: &mut Random) -> Option<(Checker, Vec<u32>)> {
    let rules = "d(X) := (d(X), e(X) ? e(X)).\n\
                 e(X) := (C : X = f(C), e(C)).\n\
                 c(X) := (X = a ? true ; X = b ? c(X)), c(X).\n";
    let kinds: [(&str, &[(u32, usize)], usize, usize); 3] = [
        ("d(X).", &[(2, 0), (5, 0), (3, 3)], 3, 330),
        ("e(X).", &[(2, 0), (4, 0), (3, 0), (1, 0)], 0, 1_000),
        ("c(X).", &[(2, 0), (3, 0), (5, 0), (1, 3), (1, 5)], 5, 170),
    ];
    let (query, round, further, most) = *random.pick(&kinds);
    let query = read_query(&read_program(rules.as_bytes()).ok()?, query.as_bytes()).ok()?;
    let cells = write::start_table(&query);
    let mut checker = Checker::start(query).ok()?;
    for number in 0..random.below(most) {
        for &(rule, place) in round {
            checker
                .step(Step {
                    rule,
                    place: Place((2 + place + number * further) as u32),
                    argument: Place(0),
                })
                .ok()?;
        }
    }
    Some((checker, cells))
}

/// What was done.
#[derive(Clone, Debug, Default)]
pub struct Counts {
    pub stores: u64,
    pub right: u64,
    /// Damaged stores that are still right.
    pub harmless: u64,
    /// How often each clause was not met, and how often it alone.
    pub faults: BTreeMap<Fault, [u64; 2]>,
    /// For each damage, how many are right, how many not.
    pub damages: BTreeMap<&'static str, [u64; 2]>,
    /// Stores that were also judged slowly.
    pub slow: u64,
    /// Steps taken from stores.
    pub steps: u64,
    /// The most parts of a run's store.
    pub most_parts: u64,
}

impl Counts {
    /// A few lines for people.
    pub fn text(&self) -> String {
        let mut text = format!(
            "stores {}, of runs {}, damaged and still right {}\n",
            self.stores, self.right, self.harmless
        );
        text += &format!(
            "judged slowly too {}, steps taken from stores {}, most parts of a run {}\n",
            self.slow, self.steps, self.most_parts
        );
        text += "clause: not met, it alone\n";
        for fault in Fault::all() {
            let [all, alone] = self.faults.get(&fault).copied().unwrap_or_default();
            text += &format!("{all:8} {alone:8}  {fault:?}\n");
        }
        text += "damage: right, not right\n";
        for (damage, [right, wrong]) in &self.damages {
            text += &format!("{right:8} {wrong:8}  {damage}\n");
        }
        text
    }

    /// The clauses that never decided: that never were the only one not met,
    /// or not met at all if others imply them.
    pub fn undecided(&self) -> Vec<Fault> {
        let decided = |fault: &Fault| {
            let [all, alone] = self.faults.get(fault).copied().unwrap_or_default();
            alone > 0 || (fault.implied() && all > 0)
        };
        Fault::all().into_iter().filter(|f| !decided(f)).collect()
    }
}

/// Makes at least `count` stores and checks what can be checked of each.
pub fn campaign(seed: u64, count: u64, counts: &mut Counts) -> Result<(), String> {
    stores(seed, count, &mut |case| {
        let told = |what: String| format!("{}: {what}", case.label());
        check(case, counts).map_err(told)
    })
}

/// What can be checked of one store.
pub fn check(case: &Case, counts: &mut Counts) -> Result<(), String> {
    counts.stores += 1;
    let of_run = case.damage == "none";
    let right = case.verdict.is_ok();
    counts.damages.entry(case.damage).or_default()[usize::from(!right)] += 1;
    match &case.verdict {
        Err(faults) if of_run => return Err(format!("the store of a run has {faults:?}")),
        Err(faults) => {
            for &fault in &faults.0 {
                counts.faults.entry(fault).or_default()[0] += 1;
            }
            if let Some(fault) = faults.alone() {
                counts.faults.entry(fault).or_default()[1] += 1;
            }
        }
        Ok(state) => {
            if of_run {
                counts.right += 1;
                counts.most_parts = counts.most_parts.max(parts(&state.goals));
            }
            counts.harmless += u64::from(!of_run);
            goes_on(case, state, counts)?;
        }
    }
    if let Some(verdict) = slow::judge(case.bytes) {
        counts.slow += 1;
        if verdict != right {
            return Err(format!("slowly {verdict}, else {:?}", case.verdict));
        }
    }
    Ok(())
}

/// A right store is written again as it was, and so are those after further
/// steps.
fn goes_on(case: &Case, state: &State, counts: &mut Counts) -> Result<(), String> {
    let mut checker = state.checker();
    if state.raw.bytes() != case.bytes[..LENGTH] {
        return Err("numbers and words do not give the store again".into());
    }
    let cells = &state.raw.cells;
    if write::raw(&checker, cells) != state.raw {
        return Err("the run does not give the store again".into());
    }
    if checker.config.places() > 60 {
        return Ok(());
    }
    let mut random = Random::new(case.seed ^ counts.stores);
    for _ in 0..random.below(4) {
        let Some(step) = walk::allowed_step(&mut random, &mut checker) else {
            break;
        };
        checker.step(step).expect("it was listed");
        counts.steps += 1;
        let after: Raw = write::raw(&checker, cells);
        let Ok(after) = judge(&after.bytes()) else {
            return Err(format!("after {step:?} the store is not right"));
        };
        // The same run from there has the same next steps.
        if after.checker().allowed() != checker.allowed() {
            return Err(format!("after {step:?} the run goes on otherwise"));
        }
    }
    Ok(())
}
