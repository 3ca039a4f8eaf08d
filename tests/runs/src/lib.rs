//! The verified calls on a store (crates/aklcheck). A slice is passed as its address and its length.

/// The documented lengths of the store and of the working slice.
pub const STORE: usize = second::store::form::LENGTH;
pub const WORKING: usize = 524_288;

/// The calls as C has them.
pub mod linked {
    extern "C" {
        pub fn akl_start(
            program: *const u8,
            program_len: usize,
            query: *const u8,
            query_len: usize,
            store: *mut u8,
            store_len: usize,
            work: *mut u8,
            work_len: usize,
        ) -> usize;
        pub fn akl_step(
            store: *mut u8,
            store_len: usize,
            work: *mut u8,
            work_len: usize,
            rule: usize,
            place: usize,
            argument: usize,
        ) -> usize;
        pub fn akl_run(
            steps: *const u8,
            steps_len: usize,
            store: *mut u8,
            store_len: usize,
            work: *mut u8,
            work_len: usize,
        ) -> usize;
        pub fn akl_answer(
            store: *const u8,
            store_len: usize,
            work: *mut u8,
            work_len: usize,
            number: usize,
            out: *mut u8,
            out_len: usize,
        ) -> usize;
        pub fn akl_state(store: *const u8, store_len: usize, work: *mut u8, work_len: usize) -> usize;
        pub fn akl_count(store: *const u8, store_len: usize, work: *mut u8, work_len: usize) -> usize;
    }
}
use linked::{akl_answer, akl_count, akl_run, akl_start, akl_state, akl_step};

// In each call every pointer comes with the length of the slice it points to, and no two slices overlap.

/// The refusal, or 0.
pub fn start(program: &[u8], query: &[u8], store: &mut [u8], work: &mut [u8]) -> usize {
    unsafe {
        akl_start(
            program.as_ptr(),
            program.len(),
            query.as_ptr(),
            query.len(),
            store.as_mut_ptr(),
            store.len(),
            work.as_mut_ptr(),
            work.len(),
        )
    }
}

/// The refusal, or 0.
pub fn step(store: &mut [u8], work: &mut [u8], rule: usize, place: usize, argument: usize) -> usize {
    unsafe {
        akl_step(
            store.as_mut_ptr(),
            store.len(),
            work.as_mut_ptr(),
            work.len(),
            rule,
            place,
            argument,
        )
    }
}

/// How many steps were accepted, and the refusal of the text, of the call or of the next step, or 0.
pub fn run(steps: &[u8], store: &mut [u8], work: &mut [u8]) -> (usize, usize) {
    let got = unsafe {
        akl_run(
            steps.as_ptr(),
            steps.len(),
            store.as_mut_ptr(),
            store.len(),
            work.as_mut_ptr(),
            work.len(),
        )
    };
    (got / 256, got % 256)
}

/// The length of the answer's text, which is at the beginning of `out`, or the refusal.
pub fn answer(store: &[u8], work: &mut [u8], number: usize, out: &mut [u8]) -> Result<usize, usize> {
    let got = unsafe {
        akl_answer(
            store.as_ptr(),
            store.len(),
            work.as_mut_ptr(),
            work.len(),
            number,
            out.as_mut_ptr(),
            out.len(),
        )
    };
    got.checked_sub(256).ok_or(got)
}

/// The state: 0 failed, 1 final, 2 open; or the refusal.
pub fn state(store: &[u8], work: &mut [u8]) -> Result<usize, usize> {
    let got = unsafe { akl_state(store.as_ptr(), store.len(), work.as_mut_ptr(), work.len()) };
    match got % 256 {
        0 => Ok(got / 256),
        refusal => Err(refusal),
    }
}

/// How many answers there are; or the refusal.
pub fn count(store: &[u8], work: &mut [u8]) -> Result<usize, usize> {
    let got = unsafe { akl_count(store.as_ptr(), store.len(), work.as_mut_ptr(), work.len()) };
    match got % 256 {
        0 => Ok(got / 256),
        refusal => Err(refusal),
    }
}
