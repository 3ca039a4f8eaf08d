//! A run: a program, a query, and the configuration after the steps so far.

use crate::config::{Config, Place};
use crate::effects;
use crate::environment::Environment;
use crate::limits::Limits;
use crate::refusal::Refusal;
use crate::rules::{self, Afresh, Mode, Row};
use crate::stability;
use crate::steps::Step;
use crate::syntax::Query;

/// A run of a query.
#[derive(Clone, Debug)]
pub struct Checker {
    pub query: Query,
    pub config: Config,
    pub limits: Limits,
    pub(crate) environment: Environment,
}

impl Checker {
    /// The start of a query; 15 when it is too large.
    pub fn start(query: Query) -> Result<Checker, Refusal> {
        Checker::start_within(query, Limits::PUBLISHED)
    }

    /// The start of a query under other limits.
    pub fn start_within(query: Query, limits: Limits) -> Result<Checker, Refusal> {
        let config = Config::start(&query);
        if config.parts > limits.parts {
            return Err(Refusal::Parts);
        }
        Ok(Checker {
            query,
            config,
            limits,
            environment: Environment::default(),
        })
    }

    /// Takes one step. "A refused step .. changes" nothing.
    pub fn step(&mut self, step: Step) -> Result<(), Refusal> {
        let row = self.check(step)?;
        let at = step.place.0 as usize;
        let program = &self.query.program;
        let growth = effects::growth(program, &self.config, row.rule, at);
        let parts = self.fits(growth)?;
        self.config.tidy(&program.code);
        effects::apply(program, &mut self.config, row.rule, at);
        self.config.parts = parts;
        Ok(())
    }

    /// Whether a step would be accepted.
    pub fn accepts(&mut self, step: Step) -> Result<(), Refusal> {
        let row = self.check(step)?;
        let at = step.place.0 as usize;
        let growth = effects::growth(&self.query.program, &self.config, row.rule, at);
        self.fits(growth).map(|_| ())
    }

    /// Refusals 10 to 13, in this order.
    fn check(&mut self, step: Step) -> Result<&'static Row, Refusal> {
        let row = rules::row_of(step.rule).ok_or(Refusal::NoRule)?;
        let goal = self.config.at(step.place).ok_or(Refusal::NoPlace)?;
        // "The argument is 0 except in rule 12. There it is the place of a
        // stable goal that is or contains the and-box".
        let named = self.config.at(step.argument).ok_or(Refusal::NoPlace)?;
        if row.mode == Mode::Determinate && step.argument != Place(0) {
            return Err(Refusal::NoPlace);
        }
        let code = &self.query.program.code;
        if rules::kind(code, &self.config, goal) != row.place {
            return Err(Refusal::OtherKind);
        }
        let environment = &mut self.environment;
        let allowed = match row.mode {
            Mode::Determinate => {
                rules::condition(row.rule, &self.config, goal, &mut Afresh(environment))
            }
            Mode::Nondeterminate => {
                rules::splits(&self.config, goal)
                    && self
                        .config
                        .parent(goal)
                        .is_some_and(|and| stability::contains(&self.config, named, and))
                    && stability::stable(code, &self.config, environment, named)
            }
        };
        if allowed {
            Ok(row)
        } else {
            Err(Refusal::Condition)
        }
    }

    /// Refusals 14 and 15; hands back the parts of the new configuration.
    fn fits(&self, growth: effects::Growth) -> Result<usize, Refusal> {
        // The last number given out would be next + fresh - 1.
        if growth.fresh > 0 && self.config.next + growth.fresh - 1 > self.limits.last_variable {
            return Err(Refusal::FreshNumbers);
        }
        let parts = self.config.parts + growth.parts_more - growth.parts_fewer;
        if parts > self.limits.parts {
            return Err(Refusal::Parts);
        }
        Ok(parts)
    }

    /// "In a list of steps, the accepted ones before the refused one stand":
    /// how many were accepted, and why the next one was not.
    pub fn run(&mut self, steps: &[Step]) -> (usize, Option<Refusal>) {
        for (accepted, &step) in steps.iter().enumerate() {
            if let Err(refusal) = self.step(step) {
                return (accepted, Some(refusal));
            }
        }
        (steps.len(), None)
    }

    /// All steps that would be accepted, by place, rule and argument.
    pub fn allowed(&mut self) -> Vec<Step> {
        let mut found = Vec::new();
        for place in 0..self.config.places() as u32 {
            for rule in 1..=rules::TABLE.len() as u32 {
                let row = &rules::TABLE[rule as usize - 1];
                let arguments = match row.mode {
                    Mode::Determinate => 1,
                    // The and-box stands before the choice-box.
                    Mode::Nondeterminate => place,
                };
                for argument in 0..arguments {
                    let step = Step {
                        rule,
                        place: Place(place),
                        argument: Place(argument),
                    };
                    match self.accepts(step) {
                        Ok(()) => found.push(step),
                        Err(Refusal::OtherKind) => break,
                        Err(_) => {}
                    }
                }
            }
        }
        found
    }
}
