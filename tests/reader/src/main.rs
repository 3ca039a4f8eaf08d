//! The verified reader against the second checker's: the same refusal, or the same names, heads, variables and words.
//!
//!     reader-tests limits               texts at the limits, small ones, the deepest and the largest
//!     reader-tests random SEED COUNT    random texts
//!     reader-tests stack                the stack that the deepest and largest texts take, at most 256 KiB
//!     reader-tests deep                 these texts once, in the main thread

mod command;
mod limits;
mod stack;
mod texts;

use limits::Case;
use second::layout::laid;
use second::random::Random;
use std::process::ExitCode;
use verified::{Tables, SHORT, TABLES};

/// The stack that every text must do with.
const STACK: usize = 256 * 1024;

fn main() -> ExitCode {
    command::main("reader-tests limits | random SEED COUNT | stack | deep", |arguments| {
        Some(match arguments {
            ["limits"] => all_limits(),
            ["random", seed, count] => random(seed.parse().ok()?, count.parse().ok()?),
            ["stack"] => stacks(),
            ["deep"] => deep(),
            _ => return None,
        })
    })
}

/// Both readers on the same texts: the number that both hand back, or what differs.
fn agree(tables: &mut Tables, program: &[u8], query: &[u8]) -> Result<u32, String> {
    let ours = tables.read(program, query);
    let differ = |what: String| {
        let (program, query) = (program.escape_ascii(), query.escape_ascii());
        Err(format!("{what}\nprogram: {program}\nquery:   {query}"))
    };
    match laid(program, query) {
        Err(refusal) if ours == refusal.number() => {
            if tables.outputs().any(|table| table.iter().any(|&byte| byte != 0)) {
                return differ(format!("refusal {ours}, but an output is not zero"));
            }
            Ok(ours)
        }
        Err(refusal) => differ(format!("verified {ours}, second {}", refusal.number())),
        Ok(_) if ours != 0 => differ(format!("verified {ours}, second 0")),
        Ok(theirs) => {
            let ours = tables.laid();
            if ours == theirs {
                return Ok(0);
            }
            differ(format!("verified {ours:?}\nsecond   {theirs:?}"))
        }
    }
}

/// The same texts with tables that are just long enough, full of something else; and with each table in turn too short.
fn with_other_tables(program: &[u8], query: &[u8], byte: u8) -> Result<(), String> {
    let lengths = (program.len().min(16_384), query.len().min(4_096));
    let mut tables = Tables::ample(lengths.0, lengths.1);
    tables.fill(byte);
    let due = agree(&mut tables, program, query)?;
    for short in 0..TABLES {
        let mut tables = Tables::ample(lengths.0, lengths.1);
        let length = tables.tables[short].len();
        tables.tables[short].truncate(length * usize::from(byte) / 256);
        let got = tables.read(program, query);
        if got != due && got != SHORT {
            let (program, query) = (program.escape_ascii(), query.escape_ascii());
            return Err(format!(
                "table {short} cut: {got} and not {due}\nprogram: {program}\nquery:   {query}"
            ));
        }
        if got == 0 {
            let whole = laid(program, query).map_err(|r| format!("{r:?}"))?;
            if tables.laid() != whole {
                return Err(format!("table {short} cut: other words"));
            }
        }
    }
    Ok(())
}

fn all_limits() -> Result<String, String> {
    let mut tables = Tables::largest();
    let mut count = 0;
    for case in limits::limits().iter().chain(&limits::large()) {
        let Case {
            what,
            program,
            query,
            due,
        } = case;
        let got = agree(&mut tables, program, query).map_err(|e| format!("{what}: {e}"))?;
        if got != *due {
            let (program, query) = (program.escape_ascii(), query.escape_ascii());
            return Err(format!(
                "{what}: both give {got}, due is {due}\nprogram: {program}\nquery:   {query}"
            ));
        }
        for byte in [0, 90, 255] {
            with_other_tables(program, query, byte).map_err(|e| format!("{what}: {e}"))?;
        }
        count += 1;
    }
    Ok(format!(
        "{count} texts at the limits: both readers as due"
    ))
}

fn random(seed: u64, count: usize) -> Result<String, String> {
    let mut tables = Tables::largest();
    let mut counts = [0; 8];
    let mut bytes = 0;
    for number in 0..count as u64 {
        let seed = seed.wrapping_mul(1_000_003).wrapping_add(number);
        let mut random = Random::new(seed);
        let (program, query) = texts::texts(&mut random);
        let due = agree(&mut tables, &program, &query).map_err(|e| format!("seed {seed}: {e}"))?;
        counts[due as usize] += 1;
        bytes += program.len() + query.len();
        if number % 16 == 0 {
            let byte = random.below(256) as u8;
            with_other_tables(&program, &query, byte).map_err(|e| format!("seed {seed}: {e}"))?;
        }
    }
    let said = format!("{count} random texts, {bytes} bytes: both readers agree; read and refused by 1 to 7: {counts:?}");
    if counts.contains(&0) {
        return Err(format!("{said}\nsome answer never came"));
    }
    Ok(said)
}

/// Prints the stack of each of the deepest and largest texts, and runs all of them in `STACK` bytes.
fn stacks() -> Result<String, String> {
    let mut said = String::new();
    let mut most = 0;
    let cases = limits::large();
    for case in &cases {
        let mut tables = Tables::largest();
        let mut got = 0;
        let taken = stack::measure(|| got = tables.read(&case.program, &case.query));
        if got != case.due {
            return Err(format!("{}: {got} and not {}", case.what, case.due));
        }
        most = most.max(taken);
        said += &format!("{taken:7} bytes of stack: {}\n", case.what);
    }
    if most > STACK {
        return Err(format!("{said}more than {STACK}"));
    }
    for case in &cases {
        let mut tables = Tables::largest();
        let mut got = 0;
        stack::within(STACK, || got = tables.read(&case.program, &case.query));
        if got != case.due {
            return Err(format!("{}: {got} and not {}", case.what, case.due));
        }
    }
    said += &format!("{most} bytes of stack at most, {STACK} allowed");
    Ok(said)
}

/// The deepest and largest texts in the main thread.
fn deep() -> Result<String, String> {
    let mut tables = Tables::largest();
    let cases = limits::large();
    for case in &cases {
        let got = tables.read(&case.program, &case.query);
        if got != case.due {
            return Err(format!("{}: {got} and not {}", case.what, case.due));
        }
    }
    Ok(format!("{} deep or large texts read", cases.len()))
}
