//! What is said where a call ends in a fault: which call, and where it reached.

use crate::due::Call;
use crate::guarded::{Guarded, Lie};
use std::cell::Cell;
use std::ffi::{c_int, c_void};
use std::fmt::Write;

extern "C" {
    fn sigaction(signal: c_int, new: *const Action, old: *mut Action) -> c_int;
    fn write(file: c_int, bytes: *const u8, length: usize) -> isize;
    fn _exit(code: c_int) -> !;
}

/// `struct sigaction` of Linux's C library.
#[repr(C)]
struct Action {
    handler: extern "C" fn(c_int, *const Info, *mut c_void),
    mask: [u64; 16],
    flags: c_int,
    restorer: usize,
}

/// The beginning of `siginfo_t`.
#[repr(C)]
struct Info {
    signal: c_int,
    error: c_int,
    code: c_int,
    pad: c_int,
    address: usize,
}

const SIGNALS: [(c_int, &str); 5] = [(11, "SIGSEGV"), (7, "SIGBUS"), (4, "SIGILL"), (8, "SIGFPE"), (6, "SIGABRT")];
const SA_SIGINFO: c_int = 4;
const SA_ONSTACK: c_int = 0x0800_0000;

/// The call that a thread is in.
#[derive(Clone, Copy)]
pub struct Now {
    pub call: *const Call,
    pub slices: *const [Guarded; 5],
    pub lies: [Lie; 5],
    /// The seed of the batch, and how many calls came before it there.
    pub seed: u64,
    pub index: usize,
}

thread_local! {
    static NOW: Cell<Option<Now>> = const { Cell::new(None) };
}

pub fn set(now: Option<Now>) {
    NOW.set(now);
}

/// From now on a fault ends the process with code 3 and a line on the call.
pub fn catch() {
    for (signal, _) in SIGNALS {
        let action = Action {
            handler: fault,
            mask: [0; 16],
            flags: SA_SIGINFO | SA_ONSTACK,
            restorer: 0,
        };
        assert!(unsafe { sigaction(signal, &action, std::ptr::null_mut()) } == 0, "sigaction");
    }
    let usual = std::panic::take_hook();
    std::panic::set_hook(Box::new(move |panic| {
        usual(panic);
        if let Some(now) = NOW.get() {
            eprintln!("in batch {}, call {}", now.seed, now.index);
        }
    }));
}

/// Text in a fixed room: nothing is allocated in a signal's handler.
struct Line {
    bytes: [u8; 700],
    length: usize,
}

impl Write for Line {
    fn write_str(&mut self, text: &str) -> std::fmt::Result {
        for &byte in text.as_bytes() {
            if self.length < self.bytes.len() {
                self.bytes[self.length] = byte;
                self.length += 1;
            }
        }
        Ok(())
    }
}

extern "C" fn fault(signal: c_int, info: *const Info, _: *mut c_void) {
    let mut line = Line {
        bytes: [0; 700],
        length: 0,
    };
    let name = SIGNALS.iter().find(|(number, _)| *number == signal).map_or("a signal", |found| found.1);
    let _ = write!(line, "fault: {name}");
    if let Some(now) = NOW.get() {
        let address = unsafe { (*info).address };
        let (call, slices) = unsafe { (&*now.call, &*now.slices) };
        match slices.iter().find_map(|slice| slice.tell(address).map(|(name, at)| (name, at, slice.length()))) {
            Some((name, at, length)) => {
                let _ = write!(line, " at byte {at} of {name}, which has {length}");
            }
            None => {
                let _ = write!(line, " at {address:#x}, in no lent slice");
            }
        }
        let _ = write!(line, "; in ");
        let _ = tell(&mut line, call, &now);
    }
    let _ = line.write_str("\n");
    unsafe {
        write(1, line.bytes.as_ptr(), line.length);
        _exit(3)
    }
}

/// A call, for people.
pub fn tell(to: &mut dyn Write, call: &Call, now: &Now) -> std::fmt::Result {
    let Call { kind, store, work, out, .. } = call;
    write!(to, "{}: texts of {} and {} bytes, store of {store}, ", kind.name(), call.text.len(), call.query.len())?;
    write!(to, "working slice of {work}, out of {out}, numbers {:?}; {:?}; ", call.numbers, now.lies)?;
    write!(to, "batch {}, call {}", now.seed, now.index)
}
