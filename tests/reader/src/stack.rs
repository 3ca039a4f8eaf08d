//! How much of the machine's stack a call takes.

use std::ptr::{read_volatile, write_volatile};

/// What is painted, from `GAP` below the caller's frame on.
const PAINTED: usize = 900 * 1024;
const GAP: usize = 4 * 1024;
const PAINT: u8 = 0xA5;

/// The bytes of stack that `work` takes, `GAP` for less. To be called in a thread with a stack of 1 MiB.
#[inline(never)]
fn taken(work: impl FnOnce()) -> usize {
    let marker = 0u8;
    let here = &raw const marker as usize;
    // Below the frames in use, inside the thread's own stack.
    for address in here - PAINTED..here - GAP {
        unsafe { write_volatile(address as *mut u8, PAINT) };
    }
    work();
    let mut address = here - PAINTED;
    while address < here - GAP && unsafe { read_volatile(address as *const u8) } == PAINT {
        address += 1;
    }
    here - address
}

fn in_thread<T: Send>(bytes: usize, work: impl FnOnce() -> T + Send) -> T {
    std::thread::scope(|scope| {
        std::thread::Builder::new()
            .stack_size(bytes)
            .spawn_scoped(scope, work)
            .expect("a thread")
            .join()
            .expect("no panic")
    })
}

/// The bytes of stack that `work` takes, found by painting.
pub fn measure(work: impl FnOnce() + Send) -> usize {
    in_thread(1024 * 1024, || taken(work))
}

/// Runs `work` in a thread with a stack of so many bytes; the process ends where that is too little.
pub fn within(bytes: usize, work: impl FnOnce() + Send) {
    in_thread(bytes, work)
}
