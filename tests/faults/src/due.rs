//! What is due of a call, by the second checker.

use second::checker::Checker;
use second::config::Place;
use second::answers::State;
use second::reader::{read_program, read_query};
use second::refusal::Refusal;
use second::steps::{read_steps, Step};
use second::store::form::LENGTH;
use second::store::{refusal_9, write};

/// The documented length of the working slice.
pub const WORKING: usize = 524_288;

#[derive(Clone, Copy, Debug, PartialEq, Eq)]
pub enum Kind {
    Start,
    Step,
    Run,
    Answer,
    State,
    Count,
}

pub const KINDS: [Kind; 6] = [Kind::Start, Kind::Step, Kind::Run, Kind::Answer, Kind::State, Kind::Count];

impl Kind {
    pub fn name(self) -> &'static str {
        ["akl_start", "akl_step", "akl_run", "akl_answer", "akl_state", "akl_count"][self as usize]
    }
}

/// A call but for the bytes of the store: what it is given and how long the slices are.
#[derive(Clone, Debug)]
pub struct Call {
    pub kind: Kind,
    /// The program, or the steps.
    pub text: Vec<u8>,
    pub query: Vec<u8>,
    /// Rule, place, argument; or the answer's number.
    pub numbers: [usize; 3],
    pub store: usize,
    pub work: usize,
    pub out: usize,
}

/// What is due: the number, what stands at the beginning of `out`, and whether the store is another one.
pub struct Due {
    pub returned: usize,
    pub text: Vec<u8>,
    pub changed: bool,
}

/// The bytes of a store, and the run that they hold, if they hold one.
pub struct Held {
    pub bytes: Vec<u8>,
    pub run: Option<(Checker, Vec<u32>)>,
}

impl Held {
    pub fn of_bytes(bytes: Vec<u8>) -> Held {
        let run = refusal_9(&bytes).map(|state| (state.checker(), state.raw.cells));
        Held { bytes, run }
    }

    fn take(&mut self, checker: Checker, cells: Vec<u32>) {
        write::raw(&checker, &cells).write(&mut self.bytes);
        self.run = Some((checker, cells));
    }

    /// What is due of a call; the store after it.
    pub fn due(&mut self, call: &Call) -> Due {
        let refused = |number: usize| Due {
            returned: number,
            text: vec![],
            changed: false,
        };
        let by = |refusal: Refusal| refused(refusal.number() as usize);
        let short = call.store < LENGTH || call.work < WORKING;
        match call.kind {
            Kind::Start => {
                // "1 to 7 of the program before those of the query", then 8, then 15
                let query = match read_program(&call.text).and_then(|program| read_query(&program, &call.query)) {
                    Ok(query) => query,
                    Err(refusal) => return by(refusal),
                };
                if short {
                    return refused(8);
                }
                let cells = write::start_table(&query);
                match Checker::start(query) {
                    Err(refusal) => by(refusal),
                    Ok(checker) => {
                        self.take(checker, cells);
                        Due {
                            changed: true,
                            ..refused(0)
                        }
                    }
                }
            }
            Kind::Run => {
                // "1 and 18 of the whole steps text before any step is tried, then the others"
                let steps = match read_steps(&call.text) {
                    Ok(steps) => steps,
                    Err(refusal) => return by(refusal),
                };
                self.with_run(short, |checker| {
                    let (accepted, refusal) = checker.run(&steps);
                    Due {
                        returned: 256 * accepted + refusal.map_or(0, |refusal| refusal.number() as usize),
                        changed: accepted > 0,
                        text: vec![],
                    }
                })
            }
            Kind::Step => {
                let [rule, place, argument] = call.numbers.map(|n| u32::try_from(n).unwrap_or(u32::MAX));
                let step = Step {
                    rule,
                    place: Place(place),
                    argument: Place(argument),
                };
                self.with_run(short, |checker| match checker.step(step) {
                    Err(refusal) => by(refusal),
                    Ok(()) => Due {
                        changed: true,
                        ..refused(0)
                    },
                })
            }
            Kind::Answer => self.with_run(short, |checker| match checker.answer(call.numbers[0], call.out) {
                Err(refusal) => by(refusal),
                Ok(text) => Due {
                    returned: 256 + text.len(),
                    text,
                    changed: false,
                },
            }),
            Kind::State => self.with_run(short, |checker| {
                refused(match checker.state() {
                    State::Failed => 0,
                    State::Final => 256,
                    State::Open => 512,
                })
            }),
            Kind::Count => self.with_run(short, |checker| refused(256 * checker.answer_boxes().len())),
        }
    }

    /// 8, then 9, then what a run gives, which is written again where it changed.
    fn with_run(&mut self, short: bool, give: impl FnOnce(&mut Checker) -> Due) -> Due {
        let number = if short { 8 } else { 9 };
        let Some((checker, cells)) = self.run.as_mut().filter(|_| !short) else {
            return Due {
                returned: number,
                text: vec![],
                changed: false,
            };
        };
        let due = give(checker);
        if due.changed {
            write::raw(checker, cells).write(&mut self.bytes);
        }
        due
    }
}
