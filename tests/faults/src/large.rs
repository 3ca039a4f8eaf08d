//! The deepest and largest texts and stores, and the runs of case folders: every call on each, at both ends.

use crate::due::{Call, Held, Kind, WORKING};
use crate::guarded::Lie;
use crate::host::Host;
use crate::{inputs, limits, stores};
use second::fuzz::stores::one;
use second::random::Random;
use second::record::Texts;
use second::store::form::LENGTH;
use std::path::Path;

/// A call with slices of the documented lengths.
fn exact(kind: Kind) -> Call {
    Call {
        kind,
        text: vec![],
        query: vec![],
        numbers: [0; 3],
        store: LENGTH,
        work: WORKING,
        out: 4_096,
    }
}

/// Calls on one input; `seed` is its number.
struct Tried<'a> {
    host: &'a mut Host,
    seed: u64,
    index: usize,
}

impl Tried<'_> {
    fn call(&mut self, held: &mut Held, call: &Call) -> Result<usize, String> {
        let lie = if self.index % 3 == 2 { Lie::AtBegin } else { Lie::AtEnd };
        self.index += 1;
        Ok(self.host.call(held, call, [lie; 5], self.seed, self.index)?.returned)
    }

    /// Questions that change nothing, and steps that are refused or not.
    fn questions(&mut self, held: &mut Held) -> Result<(), String> {
        self.call(held, &exact(Kind::State))?;
        let count = self.call(held, &exact(Kind::Count))?;
        let count = count / 256;
        let numbers: &[usize] = if count == 0 { &[1] } else { &[1, count, count + 1] };
        for &number in numbers {
            for out in [0, 4_096, 12_288] {
                let mut call = exact(Kind::Answer);
                (call.numbers[0], call.out) = (number, out);
                self.call(held, &call)?;
            }
        }
        Ok(())
    }

    /// Steps from the same store each time: each rule at some place, and rules that take what stands there.
    fn steps(&mut self, held: &mut Held, random: &mut Random) -> Result<(), String> {
        let mut steps: Vec<[usize; 3]> = vec![[1, 2, 0], [0, 0, 0]];
        let mut places = 3;
        if let Some((checker, _)) = &mut held.run {
            places = checker.config.places();
            steps.extend((1..=14).map(|rule| [rule, random.below(places), 0]));
            let fitting = (0..30).filter_map(|_| inputs::fitting(random, checker));
            steps.extend(fitting.map(|step| [step.rule, step.place.0, step.argument.0].map(|n| n as usize)));
        }
        for numbers in steps {
            let mut again = Held {
                bytes: held.bytes.clone(),
                run: held.run.clone(),
            };
            let mut call = exact(Kind::Step);
            call.numbers = numbers;
            self.call(&mut again, &call)?;
        }
        let mut call = exact(Kind::Run);
        for _ in 0..5 {
            let place = random.below(places);
            call.text.extend(format!("{} {place} 0\n", random.between(1, 14)).bytes());
        }
        self.call(held, &call)?;
        Ok(())
    }

    /// The run of texts; what the start returned, and the store after the steps.
    fn texts(&mut self, texts: &Texts) -> Result<(usize, Held), String> {
        let mut held = Held::of_bytes(vec![0; LENGTH]);
        let mut call = exact(Kind::Start);
        (call.text, call.query) = (texts.rules.clone(), texts.query.clone());
        let started = self.call(&mut held, &call)?;
        self.questions(&mut held)?;
        let mut call = exact(Kind::Run);
        call.text.clone_from(&texts.steps);
        self.call(&mut held, &call)?;
        self.questions(&mut held)?;
        Ok((started, held))
    }
}

/// The seed of a run that goes far, in depth or in breadth: second/src/fuzz/stores.rs makes one where this number comes first.
fn far(random: &mut Random) -> u64 {
    loop {
        let seed = random.next();
        if Random::new(seed).once_in(100) {
            return seed;
        }
    }
}

/// All of them; what they were.
pub fn all(host: &mut Host, folders: &[&str]) -> Result<String, String> {
    let random = &mut Random::new(7);
    let mut input = 0;
    let mut tried = |host: &mut Host, what: &str, work: &mut dyn FnMut(&mut Tried) -> Result<(), String>| {
        input += 1;
        host.repaint(input);
        let mut tried = Tried {
            host,
            seed: input,
            index: 0,
        };
        work(&mut tried).map_err(|why| format!("{what}: {why}"))?;
        host.whole().map_err(|why| format!("{what}: {why}"))
    };
    let texts: Vec<limits::Case> = limits::limits().into_iter().chain(limits::large()).collect();
    for case in &texts {
        tried(host, &case.what, &mut |tried| {
            let (started, mut held) = tried.texts(&Texts {
                rules: case.program.clone(),
                query: case.query.clone(),
                steps: b"2 2 0\n4 2 0\n5 2 0\n3 2 0\n1 2 0\n".to_vec(),
            })?;
            // A text that is read may start with too many parts.
            if started != case.due as usize && (case.due, started) != (0, 15) {
                return Err(format!("{started} is returned, due is {}", case.due));
            }
            tried.steps(&mut held, random)
        })?;
    }
    let large = stores::large();
    for case in &large {
        tried(host, case.what, &mut |tried| {
            let mut held = Held::of_bytes(case.bytes.clone());
            let state = tried.call(&mut held, &exact(Kind::State))?;
            if (state == 9) != (case.due == 9) {
                return Err(format!("the state is {state}, due is {}", case.due));
            }
            tried.questions(&mut held)?;
            tried.steps(&mut held, random)
        })?;
    }
    let mut runs = 0;
    for _ in 0..12 {
        let mut first = true;
        one(far(random), &mut |case| {
            // The store of the run itself, and few of the damaged ones.
            if !first && !random.once_in(20) {
                return Ok(());
            }
            first = false;
            runs += 1;
            tried(host, case.damage, &mut |tried| {
                let mut held = Held::of_bytes(case.bytes.to_vec());
                tried.questions(&mut held)?;
                tried.steps(&mut held, random)
            })
        })?;
    }
    for folder in folders {
        tried(host, folder, &mut |tried| tried.texts(&Texts::of_folder(Path::new(folder))).map(|_| ()))?;
    }
    Ok(format!(
        "{} texts at the limits, {} deep or large stores, {runs} of runs that go far, {} case folders",
        texts.len(),
        large.len(),
        folders.len()
    ))
}
