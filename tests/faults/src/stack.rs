//! The stack that a call takes: what is below the caller is painted before it, and looked at after it.

use std::ptr::{read_volatile, write_volatile};

/// What is not painted, for the frame of `taken` itself.
const GAP: usize = 512;
const PAINT: u64 = 0xA5C3_5A3C_A5C3_5A3C;

/// What `work` gives, and the bytes of stack that it takes, the call of `work` included: less than `GAP` shows as `GAP`, more than
/// `painted` as `painted`.
#[inline(never)]
pub fn taken(painted: usize, work: &mut dyn FnMut() -> usize) -> (usize, usize) {
    let marker = 0u64;
    let here = &raw const marker as usize & !7;
    let lowest = here - (painted & !7);
    // Below the frames in use, inside the thread's own stack.
    let mut at = here - GAP;
    while at > lowest {
        at -= 8;
        unsafe { write_volatile(at as *mut u64, PAINT) };
    }
    let got = work();
    let mut at = lowest;
    while at < here - GAP && unsafe { read_volatile(at as *const u64) } == PAINT {
        at += 8;
    }
    (got, here - at)
}
