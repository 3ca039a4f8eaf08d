//! The verified check of stores against the second checker's: the same answer, and a working slice of zeros afterwards.
//!
//!     stores-tests random SEED COUNT    random stores, right and damaged
//!     stores-tests lengths              slices that are too short, or longer than they must be
//!     stores-tests stack                the stack that the deepest and largest stores take
//!     stores-tests deep                 these stores once, in the main thread

#[path = "../../reader/src/command.rs"]
mod command;
mod large;
#[path = "../../reader/src/stack.rs"]
mod stack;

use second::fuzz::linked::Linked;
use second::store::form::LENGTH;
use second::store::refusal_9;
use std::process::ExitCode;
use std::time::Instant;
use verified_stores::{check, linked, WORKING};

/// The stack that every store must do with.
const STACK: usize = 256 * 1024;

fn main() -> ExitCode {
    command::main("stores-tests random SEED COUNT | lengths | stack | deep", |arguments| {
        Some(match arguments {
            ["random", seed, count] => random(seed.parse().ok()?, count.parse().ok()?),
            ["lengths"] => lengths(),
            ["stack"] => stacks(),
            ["deep"] => deep(),
            _ => return None,
        })
    })
}

fn random(seed: u64, count: u64) -> Result<String, String> {
    let begin = Instant::now();
    let other = Linked {
        check: linked,
        working: WORKING,
    };
    let [right, wrong] = other.compare(seed, count)?;
    let seconds = begin.elapsed().as_secs_f64();
    let said = format!(
        "{} random stores, {right} of them right and {wrong} not: both checks agree, {seconds:.1} s",
        right + wrong
    );
    if right == 0 || wrong == 0 {
        return Err(format!("{said}, but one answer never came"));
    }
    Ok(said)
}

/// One call with a working slice of so many bytes that are not zero; it must be zero afterwards.
fn due(what: &str, store: &[u8], working: usize, due: usize) -> Result<(), String> {
    let mut work = vec![0xA5; working];
    let got = check(store, &mut work);
    let lengths = format!(
        "{what}, store of {}, working slice of {working}",
        store.len()
    );
    if got != due {
        return Err(format!("{lengths}: {got}, due is {due}"));
    }
    match work.iter().position(|&byte| byte != 0) {
        Some(at) => Err(format!("{lengths}: byte {at} of the working slice is left")),
        None => Ok(()),
    }
}

fn lengths() -> Result<String, String> {
    let right = large::start("p(X) := X = a.", "p(X), p(Y).").bytes();
    let mut wrong = right.clone();
    wrong[0] ^= 1;
    let mut count = 0;
    for (what, bytes, answer) in [("right", &right, 0), ("not right", &wrong, 9)] {
        for byte in [0, 255] {
            let mut bytes = bytes.clone();
            bytes.resize(2 * LENGTH, byte);
            for length in [0, 1, 18, LENGTH - 1, LENGTH, LENGTH + 1, 2 * LENGTH] {
                for working in [
                    0,
                    1,
                    245_853,
                    WORKING - 1,
                    WORKING,
                    WORKING + 1,
                    2 * WORKING,
                ] {
                    let short = length < LENGTH || working < WORKING;
                    due(
                        what,
                        &bytes[..length],
                        working,
                        if short { 8 } else { answer },
                    )?;
                    count += 1;
                }
            }
        }
    }
    Ok(format!(
        "{count} calls with slices too short, just long enough, or longer: as due"
    ))
}

/// The stack of each of the deepest and largest stores, and all of them in `STACK` bytes.
fn stacks() -> Result<String, String> {
    let mut most = 0;
    let cases = large::large();
    for case in &cases {
        let mut work = vec![0; WORKING];
        let mut got = 0;
        let taken = stack::measure(|| got = check(&case.bytes, &mut work));
        if got != case.due {
            return Err(format!("{}: {got}, due is {}", case.what, case.due));
        }
        most = most.max(taken);
        stack::within(STACK, || got = check(&case.bytes, &mut work));
        if got != case.due {
            return Err(format!("{}: {got}, due is {}", case.what, case.due));
        }
    }
    let said = format!("at most {most} bytes of stack, {STACK} allowed");
    if most > STACK {
        return Err(said);
    }
    Ok(said)
}

/// The deepest and largest stores in the main thread, by both checks.
fn deep() -> Result<String, String> {
    let cases = large::large();
    for case in &cases {
        let theirs = if refusal_9(&case.bytes).is_some() {
            0
        } else {
            9
        };
        if theirs != case.due {
            return Err(format!(
                "{}: {theirs} by the second checker, due is {}",
                case.what, case.due
            ));
        }
        due(case.what, &case.bytes, WORKING, case.due)?;
    }
    Ok(format!(
        "{} deep or large stores: both checks as due",
        cases.len()
    ))
}
