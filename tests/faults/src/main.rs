//! The six calls of the library between guard pages, on any bytes, numbers and lengths, against the second checker.
//!
//!     faults-tests random SEED CALLS       random calls
//!     faults-tests batch SEED              one batch of them
//!     faults-tests large FOLDER..          the deepest and largest texts and stores, and the runs of case folders
//!     faults-tests threads SEED CALLS      so many in eight threads on eight stores, as alone
//!     faults-tests wrong FILE SEED CALLS   the same with the wrong calls of a file: it is to be refused

mod batch;
mod calls;
mod due;
mod guarded;
mod host;
mod inputs;
mod large;
#[path = "../../reader/src/limits.rs"]
mod limits;
mod report;
mod stack;
#[path = "../../stores/src/large.rs"]
mod stores;
#[path = "../../reader/src/texts.rs"]
mod texts;

use calls::Calls;
use host::{told, Host, Seen};
use second::random::Random;
use std::process::ExitCode;
use std::time::Instant;

fn main() -> ExitCode {
    let arguments: Vec<String> = std::env::args().skip(1).collect();
    let words: Vec<&str> = arguments.iter().map(String::as_str).collect();
    report::catch();
    let number = |text: &str| text.parse::<u64>().map_err(|_| format!("{text} is no number"));
    let result = match words[..] {
        ["random", seed, calls] => number(seed).and_then(|seed| random(Calls::linked(), seed, number(calls)? as usize)),
        ["batch", seed] => number(seed).and_then(one),
        ["large", ref folders @ ..] => large(folders),
        ["threads", seed, calls] => number(seed).and_then(|seed| threads(Calls::linked(), seed, number(calls)? as usize)),
        ["wrong", file, seed, calls] => Calls::wrong(file).and_then(|wrong| {
            random(wrong, number(seed)?, number(calls)? as usize)?;
            threads(wrong, number(seed)?, number(calls)? as usize / 8)
        }),
        _ => Err("usage: faults-tests random SEED CALLS | batch SEED | large FOLDER.. | threads .. | wrong FILE ..".into()),
    };
    match result {
        Ok(said) => {
            println!("{said}");
            ExitCode::SUCCESS
        }
        Err(said) => {
            println!("{said}");
            ExitCode::FAILURE
        }
    }
}

/// The seed of a batch.
fn seed_of(seed: u64, batch: u64) -> u64 {
    Random::new(seed.wrapping_mul(0x9E37_79B9).wrapping_add(batch)).next()
}

/// Batches until there are so many calls; a long test tells how far it is.
fn batches(host: &mut Host, seed: u64, calls: usize) -> Result<(), String> {
    const TOLD: usize = 1_000_000;
    for number in 0.. {
        let before = host.seen.all();
        if before >= calls {
            return Ok(());
        }
        batch::batch(host, seed_of(seed, number))?;
        let after = host.seen.all();
        if after / TOLD > before / TOLD {
            eprintln!("{after} calls");
        }
    }
    Ok(())
}

fn one(seed: u64) -> Result<String, String> {
    let mut host = Host::new(Calls::linked());
    batch::batch(&mut host, seed)?;
    Ok(format!("batch {seed}: as due\n{}", told(&host.seen)))
}

/// What has to come at least once in many calls: every refusal that a call has, and none.
const OFTEN: [&[usize]; 6] = [
    &[0, 1, 2, 3, 4, 5, 6, 7, 8, 15],
    &[0, 8, 9, 10, 11, 12, 13, 14, 15],
    &[0, 1, 8, 9, 10, 11, 12, 13, 14, 15, 18],
    &[0, 8, 9, 16, 17],
    &[0, 8, 9],
    &[0, 8, 9],
];

fn random(calls: Calls, seed: u64, count: usize) -> Result<String, String> {
    let begun = Instant::now();
    let mut host = Host::new(calls);
    batches(&mut host, seed, count)?;
    let seconds = begun.elapsed().as_secs_f64();
    let all = host.seen.all();
    let said = format!(
        "{all} random calls between guard pages, as due by the second checker; {seconds:.1} s, {:.0} calls a second\n{}",
        all as f64 / seconds,
        told(&host.seen)
    );
    for (kind, often) in OFTEN.iter().enumerate() {
        let never = often.iter().find(|&&number| host.seen.refused[kind][number] == 0);
        if let (Some(number), true) = (never, count >= 100_000) {
            return Err(format!("{said}{} never answered {number}", due::KINDS[kind].name()));
        }
    }
    Ok(said)
}

fn large(folders: &[&str]) -> Result<String, String> {
    let begun = Instant::now();
    let mut host = Host::new(Calls::linked());
    let inputs = large::all(&mut host, folders)?;
    let seconds = begun.elapsed().as_secs_f64();
    Ok(format!("{inputs}: as due by the second checker, {seconds:.1} s\n{}", told(&host.seen)))
}

/// Eight threads, each with slices of its own, at the same time; each sees what it saw alone, byte for byte.
fn threads(calls: Calls, seed: u64, count: usize) -> Result<String, String> {
    const THREADS: u64 = 8;
    let work = |thread: u64| -> Result<Seen, String> {
        let mut host = Host::new(calls);
        host.digests = true;
        batches(&mut host, seed_of(seed, thread), count / THREADS as usize)?;
        Ok(host.seen)
    };
    let mut alone = Vec::new();
    for thread in 0..THREADS {
        alone.push(work(thread)?);
    }
    let begun = Instant::now();
    let work = &work;
    let together: Result<Vec<Seen>, String> = std::thread::scope(|scope| {
        let run = |thread| scope.spawn(move || work(thread).map_err(|why| format!("thread {thread}: {why}")));
        let all: Vec<_> = (0..THREADS).map(run).collect();
        all.into_iter().map(|thread| thread.join().map_err(|_| "a thread panicked".to_string())?).collect()
    });
    let together = together?;
    let seconds = begun.elapsed().as_secs_f64();
    let mut sum = Seen::new();
    for thread in 0..THREADS as usize {
        let (one, other) = (&alone[thread], &together[thread]);
        if (one.digest, one.calls, one.refused) != (other.digest, other.calls, other.refused) {
            return Err(format!("thread {thread}: not the same outcomes as alone"));
        }
        sum.add(other);
    }
    let all = sum.all();
    Ok(format!("{all} calls in {THREADS} threads at the same time, as alone and as due, {seconds:.1} s\n{}", told(&sum)))
}
