//! Random runs, each compared with the independent checks.

use super::{damage, gen, walk};
use crate::checker::Checker;
use crate::limits::Limits;
use crate::oracle::{
    chains, dump, ground, logic, meaning, record as slow_record, rewrite::Model, text::Stop,
};
use crate::random::Random;
use crate::reader::{read_program, read_query};
use crate::record::{record, Texts};
use crate::refusal::Refusal;
use crate::stability;
use crate::steps::Step;
use std::collections::BTreeSet;

/// What was done.
#[derive(Clone, Debug, Default)]
pub struct Counts {
    pub runs: u64,
    pub tried: u64,
    pub accepted: [u64; 15],
    pub refused: [u64; 19],
    pub records: u64,
    pub constraints: u64,
    pub chains: u64,
    pub stable: u64,
    pub not_stable: u64,
    pub whole_lists: u64,
    pub meanings: u64,
    pub meanings_of_answers: u64,
}

impl Counts {
    /// A few lines for people.
    pub fn text(&self) -> String {
        let accepted: u64 = self.accepted.iter().sum();
        let mut text = format!(
            "runs {}\nsteps tried {}\naccepted {accepted}:",
            self.runs, self.tried
        );
        for rule in 1..15 {
            text += &format!(" {rule}:{}", self.accepted[rule]);
        }
        text += &format!("\nrefused {}:", self.refused.iter().sum::<u64>());
        for (number, count) in self.refused.iter().enumerate().filter(|(_, &c)| c > 0) {
            text += &format!(" {number}:{count}");
        }
        text += &format!(
            "\nrecords compared {}\nconstraint cases tried on trees {}, chains of terms compared {}\n",
            self.records, self.constraints, self.chains
        );
        text += &format!(
            "stability compared {} (stable {})\nlists of allowed steps compared {}\n",
            self.stable + self.not_stable,
            self.stable,
            self.whole_lists
        );
        text += &format!(
            "meanings compared {}, of answers {}\n",
            self.meanings, self.meanings_of_answers
        );
        text
    }
}

/// A disagreement, with what is needed to see it again.
#[derive(Clone, Debug)]
pub struct Disagreement {
    pub seed: u64,
    pub what: String,
    pub texts: Texts,
}

/// Runs from one seed until so many steps were tried.
pub fn campaign(seed: u64, steps: u64, counts: &mut Counts) -> Result<(), Box<Disagreement>> {
    let mut seeds = Random::new(seed);
    while counts.tried < steps {
        one(seeds.next(), counts)?;
    }
    Ok(())
}

/// One run from a seed of its own.
pub fn one(seed: u64, counts: &mut Counts) -> Result<(), Box<Disagreement>> {
    let mut random = Random::new(seed);
    let mut texts = Texts::default();
    counts.runs += 1;
    let result = match random.below(8) {
        0 => {
            texts = damage::boundary(&mut random);
            if random.once_in(3) {
                damage::damage(&mut random, &mut texts);
            }
            compare_records(&texts, counts)
        }
        _ => Run::go(&mut random, &mut texts, counts),
    };
    result.map_err(|what| Box::new(Disagreement { seed, what, texts }))
}

/// The record of fast and slow model.
fn compare_records(texts: &Texts, counts: &mut Counts) -> Result<(), String> {
    let Some(slow) = slow_record::record(texts) else {
        return Ok(());
    };
    counts.records += 1;
    let fast = String::from_utf8_lossy(&record(texts)).into_owned();
    let number = fast
        .lines()
        .nth(1)
        .and_then(|line| line.strip_prefix("refusal "));
    let refused = number.and_then(|n| n.parse::<usize>().ok()).unwrap_or(0);
    if fast.lines().count() == 2 {
        counts.refused[refused] += 1;
    }
    if fast == slow {
        Ok(())
    } else {
        Err(format!("records differ\nfast:\n{fast}slow:\n{slow}"))
    }
}

struct Run<'a> {
    random: &'a mut Random,
    counts: &'a mut Counts,
    fast: Checker,
    slow: Model,
    /// The solutions of `slow` with `unfoldings`, if they are looked at.
    solutions: Option<BTreeSet<String>>,
    unfoldings: usize,
    unfolded: usize,
    pruned: bool,
}

/// Configurations of at most so many places are compared in every respect.
const SMALL: usize = 28;

impl Run<'_> {
    fn go(random: &mut Random, texts: &mut Texts, counts: &mut Counts) -> Result<(), String> {
        for _ in 0..3 {
            counts.constraints += 1;
            ground::check(random)?;
            counts.chains += 1;
            chains::check(random)?;
        }
        let (rules, query) = gen::texts(random);
        *texts = Texts {
            rules: rules.into_bytes(),
            query: query.into_bytes(),
            steps: vec![],
        };
        let mut limits = Limits::PUBLISHED;
        if random.once_in(6) {
            limits.parts = random.between(10, 120);
        }
        if random.once_in(6) {
            limits.last_variable = random.between(0, 9) as u32;
        }
        let fast = read_program(&texts.rules)
            .and_then(|program| read_query(&program, &texts.query))
            .and_then(|query| Checker::start_within(query, limits));
        let slow = slow_record::start(texts, limits).map(|(model, _)| model);
        let (mut fast, slow) = match (fast, slow) {
            (Ok(fast), Ok(slow)) => (fast, slow),
            (Err(fast), Err(Stop::Refused(slow))) if fast.number() == slow => {
                counts.refused[slow as usize] += 1;
                return Ok(());
            }
            _ => return Err("starts differ".into()),
        };
        if random.once_in(2) {
            fast.config.tidy_often();
        }
        let start = slow.clone();
        let unfoldings = random.between(1, 2);
        let looked_at = random.once_in(3);
        let solutions = if looked_at {
            meaning::solutions(&slow, unfoldings)
        } else {
            None
        };
        let mut run = Run {
            random,
            counts,
            fast,
            slow,
            solutions,
            unfoldings,
            unfolded: 0,
            pruned: false,
        };
        run.compare()?;
        run.steps(texts)?;
        if looked_at {
            run.compare_answers(&start)?;
        }
        if limits == Limits::PUBLISHED {
            compare_records(texts, counts)?;
        }
        for damage in [damage::damage, damage::damage, damage::misuse] {
            let mut damaged = texts.clone();
            damage(random, &mut damaged);
            let result = compare_records(&damaged, counts);
            if result.is_err() {
                *texts = damaged;
                return result;
            }
        }
        Ok(())
    }

    fn steps(&mut self, texts: &mut Texts) -> Result<(), String> {
        let mut refusals = 0;
        let most = self.random.between(5, 70);
        for _ in 0..most {
            let (mut chosen, mut limited) = (None, None);
            match self.random.below(16) {
                0..=11 => chosen = walk::allowed_step(self.random, &mut self.fast),
                12 => limited = walk::limited_step(self.random, &mut self.fast),
                _ => {}
            }
            let step = chosen
                .or(limited)
                .unwrap_or_else(|| walk::any_step(self.random, &mut self.fast));
            let accepted = self.step(step, texts)?;
            if chosen.is_some() && !accepted {
                return Err(format!("a listed step was refused: {step:?}"));
            }
            refusals += usize::from(chosen.is_none() && !accepted);
            if refusals > 12 {
                break;
            }
        }
        Ok(())
    }

    /// Tries one step on both models.
    fn step(&mut self, step: Step, texts: &mut Texts) -> Result<bool, String> {
        self.counts.tried += 1;
        let fast = self.fast.step(step).map_err(Refusal::number);
        let slow = self.slow.step(step.rule, step.place.0, step.argument.0);
        let line = walk::line(step);
        match (fast, slow) {
            (Ok(()), Ok(after)) => {
                self.counts.accepted[step.rule as usize] += 1;
                self.unfolded += usize::from(step.rule == 2);
                self.pruned |= step.rule == 7 || step.rule == 8;
                let before = std::mem::replace(&mut self.slow, after);
                texts.steps.extend_from_slice(line.as_bytes());
                self.compare()?;
                self.compare_meaning(step.rule, &before)?;
                Ok(true)
            }
            (Err(fast), Err(slow)) if fast == slow => {
                self.counts.refused[fast as usize] += 1;
                if self.random.once_in(8) {
                    self.compare()?;
                }
                Ok(false)
            }
            (fast, slow) => {
                let slow = slow.map(|_| ());
                Err(format!("step {line}fast {fast:?}, slow {slow:?}"))
            }
        }
    }

    /// Both models as they stand.
    fn compare(&mut self) -> Result<(), String> {
        let (fast, slow) = (dump::fast(&self.fast), dump::slow(&self.slow.top));
        if fast != slow {
            return Err(format!("configurations differ\nfast: {fast}\nslow: {slow}"));
        }
        if self.fast.config.parts != self.slow.top.parts() {
            return Err("parts differ".into());
        }
        if self.fast.config.next != self.slow.next {
            return Err("next numbers differ".into());
        }
        if self.fast.config.places() <= SMALL {
            self.compare_stability()?;
            if self.random.once_in(16) {
                self.compare_lists()?;
            }
        }
        Ok(())
    }

    /// Every goal that is or contains an and-box: stable or not.
    fn compare_stability(&mut self) -> Result<(), String> {
        for (place, way) in self.slow.top.ways().iter().enumerate() {
            let goal = self.slow.top.at(way);
            let held = goal
                .ways()
                .iter()
                .any(|w| matches!(goal.at(w), crate::oracle::model::Goal::And(..)));
            if !held {
                continue;
            }
            let fast = self.fast.stable(place);
            if fast != self.slow.stable(way) {
                return Err(format!("stability of place {place} differs, fast {fast}"));
            }
            if fast {
                self.counts.stable += 1;
            } else {
                self.counts.not_stable += 1;
            }
        }
        Ok(())
    }

    /// Every rule at every place, with every argument.
    fn compare_lists(&mut self) -> Result<(), String> {
        self.counts.whole_lists += 1;
        let places = self.fast.config.places() as u32;
        let mut listed = self.fast.allowed().into_iter();
        for place in 0..places {
            for rule in 1..=14 {
                let arguments = if rule == 12 { places } else { 1 };
                for argument in 0..arguments {
                    if self.slow.step(rule, place, argument).is_ok() {
                        let step = listed.next();
                        let found = step.map(|s| (s.rule, s.place.0, s.argument.0));
                        if found != Some((rule, place, argument)) {
                            return Err(format!("not listed: {rule} {place} {argument}"));
                        }
                    }
                }
            }
        }
        match listed.next() {
            None => Ok(()),
            Some(step) => Err(format!("listed: {step:?}")),
        }
    }

    /// "only rules 7 and 8 may lose" a solution, "none may add one". A rule 2
    /// moves the bound on unfoldings by one.
    fn compare_meaning(&mut self, rule: u32, before: &Model) -> Result<(), String> {
        let Some(old) = self.solutions.take() else {
            return Ok(());
        };
        let Some(new) = meaning::solutions(&self.slow, self.unfoldings) else {
            return Ok(());
        };
        self.counts.meanings += 1;
        let good = match rule {
            2 => {
                let more = meaning::solutions(before, self.unfoldings + 1);
                old.is_subset(&new) && more.is_none_or(|more| new.is_subset(&more))
            }
            7 | 8 => new.is_subset(&old),
            _ => new == old,
        };
        if !good {
            return Err(format!("rule {rule} changed solutions\n{old:?}\n{new:?}"));
        }
        self.solutions = Some(new);
        Ok(())
    }

    /// The answers' solutions are the query's; without pruning, a run that ended
    /// has them all.
    fn compare_answers(&mut self, start: &Model) -> Result<(), String> {
        let room = 2_000;
        let stores = self.slow.answer_stores();
        let texts = stores.iter();
        let texts = texts.filter_map(|s| logic::text(s, &self.slow.variables, room));
        let answers: BTreeSet<String> = texts.collect();
        if self.unfolded <= 4 {
            if let Some(all) = meaning::solutions(start, self.unfolded) {
                self.counts.meanings_of_answers += 1;
                if !answers.is_subset(&all) {
                    return Err(format!("answers {answers:?} not among {all:?}"));
                }
            }
        }
        let ended = self.slow.state() != "open";
        if ended && !self.pruned {
            if let Some(some) = meaning::solutions(start, self.unfoldings) {
                if !some.is_subset(&answers) {
                    return Err(format!("answers {answers:?} leave out some of {some:?}"));
                }
            }
        }
        Ok(())
    }
}

impl Checker {
    /// Whether the goal at a place is stable.
    fn stable(&mut self, place: usize) -> bool {
        let goal = self.config.order[place];
        let code = &self.query.program.code;
        stability::stable(code, &self.config, &mut self.environment, goal)
    }
}
