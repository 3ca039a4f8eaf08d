//! The record that `runcheck` prints.

use crate::answers::State;
use crate::checker::Checker;
use crate::limits::ANSWER_BYTES;
use crate::reader::{read_program, read_query};
use crate::refusal::Refusal;
use crate::steps::read_steps;
use std::path::Path;

/// The three texts of a run.
#[derive(Clone, Debug, Default, PartialEq, Eq)]
pub struct Texts {
    pub rules: Vec<u8>,
    pub query: Vec<u8>,
    pub steps: Vec<u8>,
}

impl Texts {
    /// "a file that cannot be opened counts as empty"
    pub fn of_folder(folder: &Path) -> Texts {
        let read = |name: &str| std::fs::read(folder.join(name)).unwrap_or_default();
        Texts {
            rules: read("rules.akl"),
            query: read("query.akl"),
            steps: read("steps.txt"),
        }
    }
}

/// A run of three texts to its end: the checker, how many steps were accepted,
/// and the refusal of the next one. "1 to 7 of the program before those of the
/// query, then 1 and 18 of the whole steps text before any step is tried, then
/// the others."
pub fn run(texts: &Texts) -> Result<(Checker, usize, Option<Refusal>), Refusal> {
    let program = read_program(&texts.rules)?;
    let query = read_query(&program, &texts.query)?;
    let steps = read_steps(&texts.steps)?;
    let mut checker = Checker::start(query)?;
    let (accepted, refusal) = checker.run(&steps);
    Ok((checker, accepted, refusal))
}

/// "steps accepted; refusal of the next step or 0; answers; state". "If a text
/// or the start is refused, only the first two lines stand, with 0 accepted."
pub fn record(texts: &Texts) -> Vec<u8> {
    let (mut checker, accepted, refusal) = match run(texts) {
        Ok(run) => run,
        Err(refusal) => return format!("accepted 0\nrefusal {}\n", refusal.number()).into_bytes(),
    };
    let number = refusal.map_or(0, Refusal::number);
    let mut record = format!("accepted {accepted}\nrefusal {number}\n").into_bytes();
    for goal in checker.answer_boxes() {
        record.extend_from_slice(b"answer ");
        match checker.answer_text(goal, ANSWER_BYTES) {
            Ok(text) => record.extend_from_slice(&text),
            Err(_) => record.extend_from_slice(b"long"),
        }
        record.push(b'\n');
    }
    record.extend_from_slice(match checker.state() {
        State::Failed => b"state failed\n",
        State::Final => b"state final\n",
        State::Open => b"state open\n",
    });
    record
}
