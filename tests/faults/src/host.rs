//! One call on slices between guard pages, held against what is due.

use crate::calls::Calls;
use crate::due::{Call, Due, Held, Kind, KINDS, WORKING};
use crate::guarded::{Guarded, Lie, PAGE};
use crate::report::{self, Now};
use crate::stack::taken;
use second::store::form::LENGTH;

/// The stack that each call may take, in the order of `KINDS`: documented, found by this test and rounded up.
pub const STACK: [usize; 6] = [720_896, 4_096, 4_096, 4_096, 4_096, 4_096];

/// The longest slices that are lent.
pub const LONGEST_TEXT: usize = 20_480;
pub const LONGEST_STORE: usize = LENGTH + PAGE;
pub const LONGEST_WORK: usize = WORKING + PAGE;
pub const LONGEST_OUT: usize = 3 * PAGE;

const TEXT: usize = 0;
const QUERY: usize = 1;
const STORE: usize = 2;
const WORK: usize = 3;
const OUT: usize = 4;

/// What was seen.
#[derive(Clone, Debug, PartialEq, Eq)]
pub struct Seen {
    pub calls: [usize; 6],
    /// How often each refusal was answered, 0 for none; by call.
    pub refused: [[usize; 19]; 6],
    /// The most stack.
    pub stack: [usize; 6],
    /// A number that depends on every byte of every outcome.
    pub digest: u64,
}

impl Seen {
    pub fn new() -> Seen {
        Seen {
            calls: [0; 6],
            refused: [[0; 19]; 6],
            stack: [0; 6],
            digest: 0,
        }
    }

    pub fn all(&self) -> usize {
        self.calls.iter().sum()
    }

    pub fn add(&mut self, other: &Seen) {
        for kind in 0..6 {
            self.calls[kind] += other.calls[kind];
            self.stack[kind] = self.stack[kind].max(other.stack[kind]);
            for number in 0..19 {
                self.refused[kind][number] += other.refused[kind][number];
            }
        }
        self.digest = mixed(self.digest, &other.digest.to_le_bytes());
    }

    fn note(&mut self, bytes: &[u8]) {
        self.digest = mixed(self.digest, bytes);
    }
}

/// A number that depends on all bytes, eight at a time.
fn mixed(from: u64, bytes: &[u8]) -> u64 {
    let mut state = from ^ bytes.len() as u64;
    for piece in bytes.chunks(8) {
        let mut eight = [0; 8];
        eight[..piece.len()].copy_from_slice(piece);
        state = (state ^ u64::from_le_bytes(eight)).wrapping_mul(0x9E37_79B9_7F4A_7C15);
        state ^= state >> 29;
    }
    state
}

/// Slices between guard pages, as a host keeps them.
pub struct Host {
    calls: Calls,
    slices: [Guarded; 5],
    pub seen: Seen,
    /// Whether the bytes of every store join the digest.
    pub digests: bool,
}

impl Host {
    pub fn new(calls: Calls) -> Host {
        Host {
            calls,
            slices: [
                Guarded::new("the text", LONGEST_TEXT, 1),
                Guarded::new("the query", LONGEST_TEXT, 2),
                Guarded::new("the store", LONGEST_STORE, 3),
                Guarded::new("the working slice", LONGEST_WORK, 4),
                Guarded::new("the output slice", LONGEST_OUT, 5),
            ],
            seen: Seen::new(),
            digests: false,
        }
    }

    /// Another pattern in and around the slices.
    pub fn repaint(&mut self, fill: u64) {
        for (number, slice) in self.slices.iter_mut().enumerate() {
            slice.repaint(fill.wrapping_add(number as u64));
        }
    }

    /// Nothing was written far from the slices since they were painted.
    pub fn whole(&mut self) -> Result<(), String> {
        self.slices.iter_mut().try_for_each(Guarded::whole)
    }

    /// A call by both, on the store that is held; each slice lies as said, but that only an empty one lies nowhere.
    pub fn call(&mut self, held: &mut Held, call: &Call, lies: [Lie; 5], seed: u64, index: usize) -> Result<Due, String> {
        let lengths = [call.text.len(), call.query.len(), call.store, call.work, call.out];
        let lie = |slice: usize| match lies[slice] {
            Lie::Nowhere if lengths[slice] > 0 => Lie::AtEnd,
            lie => lie,
        };
        let lies = std::array::from_fn(lie);
        let now = Now {
            call,
            slices: &self.slices,
            lies,
            seed,
            index,
        };
        report::set(Some(now));
        let told = |why: String| {
            let mut text = format!("{why}; in ");
            let _ = report::tell(&mut text, call, &now);
            text
        };
        let due = self.compare(held, call, lies).map_err(told);
        report::set(None);
        due
    }

    fn compare(&mut self, held: &mut Held, call: &Call, lies: [Lie; 5]) -> Result<Due, String> {
        let kind = call.kind;
        let asks = matches!(kind, Kind::Answer | Kind::State | Kind::Count);
        let lent = call.store.min(LENGTH);
        self.slices[TEXT].lend(lies[TEXT], call.text.len(), &call.text);
        self.slices[QUERY].lend(lies[QUERY], call.query.len(), &call.query);
        self.slices[STORE].lend(lies[STORE], call.store, &held.bytes[..lent]);
        self.slices[WORK].lend(lies[WORK], call.work, &[]);
        self.slices[OUT].lend(lies[OUT], call.out, &[]);
        let due = held.due(call);

        let Calls {
            start,
            step,
            run,
            answer,
            state,
            count,
        } = self.calls;
        let [text, query, store, work, out] = &self.slices;
        let [rule, place, argument] = call.numbers;
        // Each address comes with the length of its slice, and no two slices overlap. What the call may only read is lent
        // where a write is a fault.
        let (text_at, query_at) = (text.to_read(), query.to_read());
        let (asked_at, store_at, work_at, out_at) = (store.to_read(), store.to_write(), work.to_write(), out.to_write());
        let (text_len, query_len) = (call.text.len(), call.query.len());
        let (store_len, work_len, out_len) = (call.store, call.work, call.out);
        let painted = STACK[kind as usize] + 2 * PAGE;
        let (got, stack) = match kind {
            Kind::Start => taken(painted, &mut || unsafe {
                start(text_at, text_len, query_at, query_len, store_at, store_len, work_at, work_len)
            }),
            Kind::Step => taken(painted, &mut || unsafe {
                step(store_at, store_len, work_at, work_len, rule, place, argument)
            }),
            Kind::Run => taken(painted, &mut || unsafe {
                run(text_at, text_len, store_at, store_len, work_at, work_len)
            }),
            Kind::Answer => taken(painted, &mut || unsafe {
                answer(asked_at, store_len, work_at, work_len, rule, out_at, out_len)
            }),
            Kind::State => taken(painted, &mut || unsafe { state(asked_at, store_len, work_at, work_len) }),
            Kind::Count => taken(painted, &mut || unsafe { count(asked_at, store_len, work_at, work_len) }),
        };

        let seen = &mut self.seen;
        seen.calls[kind as usize] += 1;
        seen.stack[kind as usize] = seen.stack[kind as usize].max(stack);
        if got != due.returned {
            return Err(format!("{got} is returned, due is {}", due.returned));
        }
        let refusal = match kind {
            Kind::Answer if got >= 256 => 0,
            _ => got % 256,
        };
        seen.refused[kind as usize][refusal] += 1;
        seen.note(&got.to_le_bytes());
        seen.note(&due.text);
        if self.digests && !asks {
            seen.note(&held.bytes[..lent]);
        }
        self.slices[TEXT].back(&call.text)?;
        self.slices[QUERY].back(&call.query)?;
        self.slices[STORE].back(&held.bytes[..lent])?;
        self.slices[WORK].back_zero()?;
        self.slices[OUT].back(&due.text)?;
        if stack > STACK[kind as usize] {
            let most = STACK[kind as usize];
            return Err(format!("{stack} bytes of stack are taken, {most} is documented"));
        }
        Ok(due)
    }
}

/// The figures of a test, a line for each call.
pub fn told(seen: &Seen) -> String {
    let mut text = String::new();
    for kind in KINDS {
        let at = kind as usize;
        let refused = seen.refused[at].iter().enumerate().skip(1).filter(|(_, &count)| count > 0);
        let refused: Vec<String> = refused.map(|(number, count)| format!("{number}: {count}")).collect();
        text += &format!(
            "  {:<10} {:>9} calls, {:>9} not refused; at most {:>5} bytes of stack, {} documented; refused by {}\n",
            kind.name(),
            seen.calls[at],
            seen.refused[at][0],
            seen.stack[at],
            STACK[at],
            refused.join(", "),
        );
    }
    text
}
