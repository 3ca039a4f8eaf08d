//! Random case folders, for comparison with other programs.

use super::{damage, gen, walk};
use crate::checker::Checker;
use crate::random::Random;
use crate::reader::{read_program, read_query};
use crate::record::Texts;
use std::path::Path;

/// The texts of one random case: mostly a long run, at times with a refused
/// step at its end, a damaged text or a text at a limit.
pub fn texts(seed: u64) -> Texts {
    let mut random = Random::new(seed);
    let kind = random.below(10);
    if kind == 0 {
        return damage::boundary(&mut random);
    }
    let (rules, query) = gen::texts(&mut random);
    let mut texts = Texts {
        rules: rules.into_bytes(),
        query: query.into_bytes(),
        steps: vec![],
    };
    let start = read_program(&texts.rules)
        .and_then(|program| read_query(&program, &texts.query))
        .and_then(Checker::start);
    if let Ok(mut checker) = start {
        for _ in 0..random.between(10, 150) {
            let Some(step) = walk::allowed_step(&mut random, &mut checker) else {
                break;
            };
            texts.steps.extend_from_slice(walk::line(step).as_bytes());
            checker.step(step).expect("it was listed");
        }
        if random.once_in(2) {
            let last = walk::any_step(&mut random, &mut checker);
            texts.steps.extend_from_slice(walk::line(last).as_bytes());
        }
    }
    match kind {
        1 => damage::damage(&mut random, &mut texts),
        2 => damage::misuse(&mut random, &mut texts),
        _ => {}
    }
    texts
}

/// Writes the three texts of a case into a folder.
pub fn write(texts: &Texts, folder: &Path) -> std::io::Result<()> {
    std::fs::create_dir_all(folder)?;
    std::fs::write(folder.join("rules.akl"), &texts.rules)?;
    std::fs::write(folder.join("query.akl"), &texts.query)?;
    std::fs::write(folder.join("steps.txt"), &texts.steps)
}
