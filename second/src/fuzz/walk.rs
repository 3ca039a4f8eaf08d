//! Random steps: among the allowed ones with rare rules favoured, mixed with
//! others.

use crate::checker::Checker;
use crate::config::Place;
use crate::random::Random;
use crate::refusal::Refusal;
use crate::steps::Step;

/// How much each rule is favoured; rule 0 is none.
const FAVOUR: [usize; 15] = [0, 4, 3, 5, 5, 5, 3, 12, 12, 2, 5, 5, 14, 20, 6];
/// Configurations of more parts unfold less.
const LARGE: usize = 150;

/// A step among the allowed ones, if there are any.
pub fn allowed_step(random: &mut Random, checker: &mut Checker) -> Option<Step> {
    let allowed = checker.allowed();
    let mut weights = Vec::with_capacity(allowed.len());
    for step in &allowed {
        let favour = FAVOUR[step.rule as usize];
        let shrink = step.rule == 2 && checker.config.parts > LARGE;
        weights.push(if shrink { 1 } else { 4 * favour });
    }
    (!allowed.is_empty()).then(|| allowed[random.weighted(&weights)])
}

/// A step that only a limit refuses, if there are any.
pub fn limited_step(random: &mut Random, checker: &mut Checker) -> Option<Step> {
    let mut found = Vec::new();
    for place in 0..checker.config.places() as u32 {
        for rule in 1..=14 {
            let step = Step {
                rule,
                place: Place(place),
                argument: Place(0),
            };
            let refusal = checker.accepts(step);
            if matches!(refusal, Err(Refusal::FreshNumbers | Refusal::Parts)) {
                found.push(step);
            }
        }
    }
    (!found.is_empty()).then(|| *random.pick(&found))
}

/// Any step: a wrong place, kind, argument or rule, or a right one by chance.
pub fn any_step(random: &mut Random, checker: &mut Checker) -> Step {
    let places = checker.config.places();
    let number = |random: &mut Random| match random.below(12) {
        0 => places as u32,
        1 => places as u32 + random.below(5) as u32,
        2 if random.once_in(4) => u32::MAX,
        _ => random.below(places) as u32,
    };
    let rule = match random.below(20) {
        0 => *random.pick(&[0, 15, 16, 100, u32::MAX]),
        1..=5 => *random.pick(&[7, 8, 12]),
        _ => random.between(1, 14) as u32,
    };
    let place = number(random);
    let argument = match rule {
        12 => number(random),
        _ if random.once_in(10) => number(random),
        _ => 0,
    };
    Step {
        rule,
        place: Place(place),
        argument: Place(argument),
    }
}

/// A step's line in a steps text.
pub fn line(step: Step) -> String {
    format!("{} {} {}\n", step.rule, step.place.0, step.argument.0)
}
