//! The verified calls against the second checker's: the same answers, the same stores after every call, and a working slice of zeros.
//!
//!     runs-tests random SEED RUNS    random runs: every step by itself, and then all of them as texts
//!     runs-tests cases FOLDER..      case folders, each with program, query and steps
//!     runs-tests lengths             slices that are too short, stores that hold nothing

#[path = "../../reader/src/command.rs"]
mod command;

use second::checker::Checker;
use second::fuzz::{make, walk};
use second::random::Random;
use second::reader::{read_program, read_query};
use second::limits::ANSWER_BYTES;
use second::record::{self, record, Texts};
use second::refusal::Refusal;
use second::steps::{read_steps, Step};
use second::store::write;
use std::process::ExitCode;
use std::time::Instant;
use verified_calls::{answer, count, run, start, state, step, STORE, WORKING};

fn main() -> ExitCode {
    command::main("runs-tests random SEED RUNS | cases FOLDER.. | lengths", |arguments| {
        Some(match arguments {
            ["random", seed, count] => random(seed.parse().ok()?, count.parse().ok()?),
            ["cases", folders @ ..] => cases(folders),
            ["lengths"] => lengths(),
            _ => return None,
        })
    })
}

fn number(result: Result<(), Refusal>) -> usize {
    result.map_or_else(|refusal| refusal.number() as usize, |()| 0)
}

/// A store and a working slice as a host keeps them.
struct Host {
    store: Vec<u8>,
    work: Vec<u8>,
}

impl Host {
    fn new() -> Host {
        Host {
            store: vec![0; STORE],
            work: vec![0; WORKING],
        }
    }

    /// "the working slice is zero after every call": it is lent full of something else.
    fn lend(&mut self, with: usize) {
        self.work.fill(with as u8 | 1);
    }

    fn zero(&self) -> Result<(), String> {
        match self.work.iter().position(|&byte| byte != 0) {
            Some(at) => Err(format!("byte {at} of the working slice is left")),
            None => Ok(()),
        }
    }

    /// The store is that of the second checker's run.
    fn same(&self, checker: &Checker, cells: &[u32]) -> Result<(), String> {
        let due = write::raw(checker, cells).bytes();
        match self.store.iter().zip(&due).position(|(a, b)| a != b) {
            Some(at) => Err(format!("byte {at} of the store is {}, due is {}", self.store[at], due[at])),
            None => Ok(()),
        }
    }
}

/// The second checker at the start of a query, and its table of names.
fn begin(texts: &Texts) -> Result<(Checker, Vec<u32>), Refusal> {
    let program = read_program(&texts.rules)?;
    let query = read_query(&program, &texts.query)?;
    let cells = write::start_table(&query);
    Ok((Checker::start(query)?, cells))
}

#[derive(Default)]
struct Counts {
    runs: usize,
    accepted: usize,
    /// the answers that were counted, and the most in one configuration
    answers: (usize, usize),
    refused: [usize; 19],
}

impl Counts {
    fn counted(&self) -> String {
        format!("the number of answers, {} in all and at most {}", self.answers.0, self.answers.1)
    }
}

/// The start of a run, by both. None where it is refused.
fn begin_both(host: &mut Host, texts: &Texts, counts: &mut Counts) -> Result<Option<(Checker, Vec<u32>)>, String> {
    host.store.fill(0xA5);
    let before = host.store.clone();
    host.lend(counts.runs);
    let got = start(&texts.rules, &texts.query, &mut host.store, &mut host.work);
    host.zero().map_err(|why| format!("start: {why}"))?;
    match begin(texts) {
        Err(refusal) => {
            counts.refused[refusal.number() as usize] += 1;
            if got != refusal.number() as usize {
                return Err(format!("start: {got}, due is {}", refusal.number()));
            }
            if host.store != before {
                return Err("start: refused, and the store is changed".into());
            }
            Ok(None)
        }
        Ok((checker, cells)) => {
            if got != 0 {
                return Err(format!("start: {got}, due is 0"));
            }
            host.same(&checker, &cells).map_err(|why| format!("start: {why}"))?;
            Ok(Some((checker, cells)))
        }
    }
}

/// One step, by both.
fn step_both(host: &mut Host, checker: &mut Checker, cells: &[u32], taken: Step, counts: &mut Counts) -> Result<(), String> {
    host.lend(counts.accepted);
    let label = walk::line(taken);
    let label = label.trim();
    let due = number(checker.step(taken));
    let got = step(
        &mut host.store,
        &mut host.work,
        taken.rule as usize,
        taken.place.0 as usize,
        taken.argument.0 as usize,
    );
    host.zero().map_err(|why| format!("step {label}: {why}"))?;
    if got != due {
        return Err(format!("step {label}: {got}, due is {due}"));
    }
    match due {
        0 => counts.accepted += 1,
        refusal => counts.refused[refusal] += 1,
    }
    host.same(checker, cells).map_err(|why| format!("step {label}: {why}"))
}

/// The steps text of a case, by both, from the start on.
fn text_both(host: &mut Host, texts: &Texts, counts: &mut Counts) -> Result<(), String> {
    let Some((mut checker, cells)) = begin_both(host, texts, counts)? else {
        return Ok(());
    };
    host.lend(counts.runs);
    let got = run(&texts.steps, &mut host.store, &mut host.work);
    host.zero().map_err(|why| format!("steps text: {why}"))?;
    let due = match read_steps(&texts.steps) {
        Err(refusal) => (0, refusal.number() as usize),
        Ok(steps) => {
            let (accepted, refusal) = checker.run(&steps);
            (accepted, refusal.map_or(0, |refusal| refusal.number() as usize))
        }
    };
    if got != due {
        return Err(format!("steps text: {got:?}, due is {due:?}"));
    }
    counts.refused[due.1] += usize::from(due.1 != 0);
    host.same(&checker, &cells).map_err(|why| format!("steps text: {why}"))
}

/// The record of a run by the calls alone.
fn record_by_calls(host: &mut Host, texts: &Texts) -> Result<Vec<u8>, String> {
    let refused = |refusal: usize| Ok(format!("accepted 0\nrefusal {refusal}\n").into_bytes());
    let begun = start(&texts.rules, &texts.query, &mut host.store, &mut host.work);
    if (1..=7).contains(&begun) {
        return refused(begun);
    }
    // "1 and 18 of the whole steps text before any step is tried, then the others": slices too short give 8 after them
    let (_, refusal) = run(&texts.steps, &mut [], &mut []);
    if refusal != 8 {
        return refused(refusal);
    }
    if begun != 0 {
        return refused(begun);
    }
    let (accepted, refusal) = run(&texts.steps, &mut host.store, &mut host.work);
    let mut record = format!("accepted {accepted}\nrefusal {refusal}\n").into_bytes();
    let before = host.store.clone();
    for number in 1.. {
        let mut out = vec![0xA5; ANSWER_BYTES];
        host.lend(number);
        let got = answer(&host.store, &mut host.work, number, &mut out);
        host.zero().map_err(|why| format!("answer {number}: {why}"))?;
        let length = match got {
            Err(16) => break,
            Err(17) => 0,
            Err(other) => return Err(format!("answer {number}: refused by {other}")),
            Ok(length) => length,
        };
        if out[length..].iter().any(|&byte| byte != 0xA5) {
            return Err(format!("answer {number}: written past its {length} bytes"));
        }
        record.extend_from_slice(b"answer ");
        record.extend_from_slice(if got.is_err() { b"long" } else { &out[..length] });
        record.push(b'\n');
    }
    host.lend(0);
    let name = match state(&host.store, &mut host.work) {
        Ok(0) => "failed",
        Ok(1) => "final",
        Ok(2) => "open",
        other => return Err(format!("state: {other:?}")),
    };
    host.zero().map_err(|why| format!("state: {why}"))?;
    if host.store != before {
        return Err("a question changed the store".into());
    }
    record.extend_from_slice(format!("state {name}\n").as_bytes());
    Ok(record)
}

/// How many answers there are at the end of a run, by both; the store is that of the end.
fn count_both(host: &mut Host, texts: &Texts, counts: &mut Counts) -> Result<(), String> {
    let Ok((mut checker, ..)) = record::run(texts) else {
        return Ok(()); // "If a text or the start is refused" there is no configuration
    };
    host.lend(counts.runs);
    let before = host.store.clone();
    let got = count(&host.store, &mut host.work);
    host.zero().map_err(|why| format!("count: {why}"))?;
    let due = checker.answer_boxes().len();
    if got != Ok(due) {
        return Err(format!("count: {got:?}, due is {due}"));
    }
    if host.store != before {
        return Err("count: the store is changed".into());
    }
    counts.answers = (counts.answers.0 + due, counts.answers.1.max(due));
    Ok(())
}

/// The records of both are the same, and so are the numbers of answers.
fn record_both(host: &mut Host, texts: &Texts, counts: &mut Counts) -> Result<(), String> {
    let got = record_by_calls(host, texts)?;
    let due = record(texts);
    if got != due {
        let text = |bytes: &[u8]| String::from_utf8_lossy(bytes).into_owned();
        return Err(format!("record\n{}due is\n{}", text(&got), text(&due)));
    }
    count_both(host, texts, counts)
}

/// One random case: its steps text, and a run of single steps, right and wrong.
fn one(seed: u64, host: &mut Host, counts: &mut Counts) -> Result<(), String> {
    let texts = make::texts(seed);
    text_both(host, &texts, counts)?;
    record_both(host, &texts, counts)?;
    let Some((mut checker, cells)) = begin_both(host, &texts, counts)? else {
        return Ok(());
    };
    let mut random = Random::new(seed ^ 0x5EED);
    for _ in 0..random.between(5, 60) {
        let taken = match random.below(8) {
            0..=2 => Some(walk::any_step(&mut random, &mut checker)),
            3 if random.once_in(20) => walk::limited_step(&mut random, &mut checker),
            _ => walk::allowed_step(&mut random, &mut checker),
        };
        let taken = taken.unwrap_or_else(|| walk::any_step(&mut random, &mut checker));
        step_both(host, &mut checker, &cells, taken, counts)?;
    }
    Ok(())
}

fn random(seed: u64, count: usize) -> Result<String, String> {
    let begun = Instant::now();
    let mut seeds = Random::new(seed);
    let mut host = Host::new();
    let mut counts = Counts::default();
    while counts.runs < count {
        let seed = seeds.next();
        one(seed, &mut host, &mut counts).map_err(|why| format!("seed {seed}: {why}"))?;
        counts.runs += 1;
    }
    let due: [usize; 14] = [1, 2, 3, 4, 5, 6, 7, 10, 11, 12, 13, 14, 15, 18];
    let missing: Vec<usize> = due.into_iter().filter(|&n| counts.refused[n] == 0).collect();
    let seconds = begun.elapsed().as_secs_f64();
    let said = format!(
        "{} random runs, {} single steps accepted, refusals 1 to 18: {:?}: both agree on every store and record and on {}, {seconds:.1} s",
        counts.runs,
        counts.accepted,
        &counts.refused[1..],
        counts.counted()
    );
    if counts.accepted == 0 || (count >= 2000 && missing.iter().any(|&n| n != 14)) {
        return Err(format!("{said}; never refused by {missing:?}"));
    }
    Ok(said)
}

fn cases(folders: &[&str]) -> Result<String, String> {
    let mut host = Host::new();
    let mut counts = Counts::default();
    for folder in folders {
        let read = |name: &str| std::fs::read(format!("{folder}/{name}")).unwrap_or_default();
        let texts = Texts {
            rules: read("rules.akl"),
            query: read("query.akl"),
            steps: read("steps.txt"),
        };
        text_both(&mut host, &texts, &mut counts).map_err(|why| format!("{folder}: {why}"))?;
        record_both(&mut host, &texts, &mut counts).map_err(|why| format!("{folder}: {why}"))?;
        if let Some((mut checker, cells)) = begin_both(&mut host, &texts, &mut counts)? {
            for taken in read_steps(&texts.steps).unwrap_or_default() {
                step_both(&mut host, &mut checker, &cells, taken, &mut counts).map_err(|why| format!("{folder}: {why}"))?;
            }
        }
        counts.runs += 1;
    }
    let counted = counts.counted();
    Ok(format!("{} case folders, {} steps accepted: both agree on every store and record and on {counted}", counts.runs, counts.accepted))
}

/// 8 where a slice is shorter than documented, 9 where the store holds nothing; 1 and 18 of a steps text come first.
fn lengths() -> Result<String, String> {
    let mut calls = 0;
    for (store, working, text, due) in [
        (STORE - 1, WORKING, &b"1 0 0\n"[..], 8),
        (STORE, WORKING - 1, b"1 0 0\n", 8),
        (0, 0, b"1 0 0\n", 8),
        (STORE, WORKING, b"1 0 0\n", 9),
        (STORE + 7, WORKING + 7, b"1 0 0\n", 9),
        (0, 0, b"1 0 0", 18),
        (STORE, WORKING, b"1 0 0 \n", 18),
    ] {
        let mut host = Host {
            store: vec![0xA5; store],
            work: vec![0xA5; working],
        };
        let before = host.store.clone();
        let got = run(text, &mut host.store, &mut host.work);
        host.zero()?;
        if got != (0, due) {
            return Err(format!("store of {store}, working slice of {working}: steps text {got:?}, due is (0, {due})"));
        }
        if due != 18 {
            host.lend(0);
            let got = step(&mut host.store, &mut host.work, 1, 0, 0);
            host.zero()?;
            if got != due {
                return Err(format!("store of {store}, working slice of {working}: step {got}, due is {due}"));
            }
            host.lend(1);
            let got = count(&host.store, &mut host.work);
            host.zero()?;
            if got != Err(due) {
                return Err(format!("store of {store}, working slice of {working}: count {got:?}, due is {due}"));
            }
        }
        if host.store != before {
            return Err(format!("store of {store}, working slice of {working}: refused, and changed"));
        }
        calls += 1;
    }
    Ok(format!("{calls} calls with other lengths: 8, 9 and 18 as due"))
}
