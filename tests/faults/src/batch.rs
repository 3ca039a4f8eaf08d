//! One batch of random calls: on a run, on damaged stores, or on stores that no run leaves.

use crate::due::{Call, Held, Kind};
use crate::host::Host;
use crate::inputs;
use second::fuzz::{gen, make, stores};
use second::random::Random;
use second::record::Texts;
use second::store::form::LENGTH;
use second::store::write;

/// How often each kind of call is made, in the order of `KINDS`: on a run, on other stores, and on a run near a limit.
const ON_RUN: [usize; 6] = [3, 12, 6, 12, 3, 3];
const ON_STORE: [usize; 6] = [1, 4, 3, 3, 2, 2];
const ON_LIMIT: [usize; 6] = [0, 12, 6, 1, 1, 1];

pub fn batch(host: &mut Host, seed: u64) -> Result<(), String> {
    let random = &mut Random::new(seed);
    host.repaint(random.next());
    match random.below(16) {
        0..=8 => run(host, random, seed)?,
        9..=12 => damaged(host, random, seed)?,
        13 => limit(host, random, seed)?,
        _ => none(host, random, seed)?,
    }
    host.whole().map_err(|why| format!("{why}; in batch {seed}"))
}

/// Calls on a store that begins as nothing and then is that of a run.
fn run(host: &mut Host, random: &mut Random, seed: u64) -> Result<(), String> {
    let own = match random.below(8) {
        0..=2 => make::texts(random.next()),
        3..=5 => inputs::answered(random),
        _ => {
            let (rules, query) = gen::texts(random);
            Texts {
                rules: rules.into_bytes(),
                query: query.into_bytes(),
                steps: b"2 2 0\n3 2 0\n".to_vec(),
            }
        }
    };
    let mut held = Held::of_bytes(vec![0; LENGTH]);
    let mut next: Vec<Call> = inputs::begin(&own).into();
    for index in 0..random.between(50, 150) {
        // A run that was begun, by its own texts or others, mostly goes on by its steps.
        let call = match next.is_empty() {
            true => inputs::call(random, &mut held, &own, &ON_RUN),
            false => next.remove(0),
        };
        let due = host.call(&mut held, &call, inputs::lies(random), seed, index)?;
        if call.kind == Kind::Start && due.changed && next.is_empty() {
            next = inputs::begin(&own).into();
            if call.text == own.rules && call.query == own.query {
                next.remove(0);
            }
            if random.once_in(4) {
                next.clear();
            }
        }
    }
    Ok(())
}

/// Calls on right and damaged stores.
fn damaged(host: &mut Host, random: &mut Random, seed: u64) -> Result<(), String> {
    let own = Texts::default();
    let mut index = 0;
    stores::one(random.next(), &mut |case| {
        let run = case.verdict.as_ref().ok();
        let mut held = Held {
            bytes: case.bytes.to_vec(),
            run: run.map(|state| (state.checker(), state.raw.cells.clone())),
        };
        for _ in 0..random.between(1, 4) {
            let mut call = inputs::call(random, &mut held, &own, &ON_STORE);
            if call.kind == Kind::Start && random.once_in(2) {
                call.kind = Kind::Count;
            }
            let lies = inputs::lies(random);
            host.call(&mut held, &call, lies, seed, index).map_err(|why| format!("{why}; {}", case.damage))?;
            index += 1;
        }
        Ok(())
    })
}

/// Calls on the store of a run that is near a limit: of numbers (14) or of parts (15).
fn limit(host: &mut Host, random: &mut Random, seed: u64) -> Result<(), String> {
    let numbers = random.once_in(2);
    let query = match numbers {
        true => b"p(X).".to_vec(),
        // twice the calls and one more are the parts of the start
        false => [b"q".to_vec(), b",q".repeat(random.between(1_014, 1_022)), b".".to_vec()].concat(),
    };
    let own = Texts {
        rules: b"p(X) := (Y : X = f(Y), p(Y)). q := (true ? true ; Z : true ? Z = a), q.".to_vec(),
        query,
        steps: b"2 2 0\n4 2 0\n3 2 0\n1 2 0\n2 2 0\n4 2 0\n".to_vec(),
    };
    let mut held = Held::of_bytes(vec![0; LENGTH]);
    let [start, _] = inputs::begin(&own);
    host.call(&mut held, &start, inputs::lies(random), seed, 0)?;
    if let (true, Some((checker, cells))) = (numbers, &held.run) {
        let mut raw = write::raw(checker, cells);
        raw.next = 65_535 - random.below(4) as u32;
        held = Held::of_bytes(raw.bytes());
    }
    for index in 1..random.between(20, 60) {
        let call = inputs::call(random, &mut held, &own, &ON_LIMIT);
        host.call(&mut held, &call, inputs::lies(random), seed, index)?;
    }
    Ok(())
}

/// Calls on stores of any bytes.
fn none(host: &mut Host, random: &mut Random, seed: u64) -> Result<(), String> {
    let own = Texts::default();
    let mut held = Held::of_bytes(inputs::no_store(random));
    for index in 0..random.between(10, 40) {
        let call = inputs::call(random, &mut held, &own, &ON_STORE);
        host.call(&mut held, &call, inputs::lies(random), seed, index)?;
    }
    Ok(())
}
