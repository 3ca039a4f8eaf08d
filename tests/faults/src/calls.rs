//! The calls of the library (crates/aklcheck), as C links them. A slice is passed as its address and its length.

use std::ffi::{c_char, c_int, c_void, CString};
use verified_calls::linked::{akl_answer, akl_count, akl_run, akl_start, akl_state, akl_step};

type Start = unsafe extern "C" fn(*const u8, usize, *const u8, usize, *mut u8, usize, *mut u8, usize) -> usize;
type Step = unsafe extern "C" fn(*mut u8, usize, *mut u8, usize, usize, usize, usize) -> usize;
type Run = unsafe extern "C" fn(*const u8, usize, *mut u8, usize, *mut u8, usize) -> usize;
type Answer = unsafe extern "C" fn(*const u8, usize, *mut u8, usize, usize, *mut u8, usize) -> usize;
type Question = unsafe extern "C" fn(*const u8, usize, *mut u8, usize) -> usize;

extern "C" {
    fn dlopen(file: *const c_char, flags: c_int) -> *mut c_void;
    fn dlsym(library: *mut c_void, name: *const c_char) -> *mut c_void;
}

/// Where the calls are.
#[derive(Clone, Copy)]
pub struct Calls {
    pub start: Start,
    pub step: Step,
    pub run: Run,
    pub answer: Answer,
    pub state: Question,
    pub count: Question,
}

impl Calls {
    /// Those of the library.
    pub fn linked() -> Calls {
        Calls {
            start: akl_start,
            step: akl_step,
            run: akl_run,
            answer: akl_answer,
            state: akl_state,
            count: akl_count,
        }
    }

    /// Those of the library, but for the wrong ones that a file has: `wrong_akl_step` for `akl_step`, and so on.
    pub fn wrong(file: &str) -> Result<Calls, String> {
        const RTLD_NOW: c_int = 2;
        let path = CString::new(file).map_err(|why| why.to_string())?;
        let library = unsafe { dlopen(path.as_ptr(), RTLD_NOW) };
        if library.is_null() {
            return Err(format!("{file}: cannot be loaded"));
        }
        let mut found = 0;
        let mut wrong = |name: &str| {
            let name = CString::new(format!("wrong_akl_{name}")).expect("no zero");
            let address = unsafe { dlsym(library, name.as_ptr()) };
            found += usize::from(!address.is_null());
            (!address.is_null()).then_some(address)
        };
        let mut calls = Calls::linked();
        // The files declare each call as the library has it (wrong-libraries/calls.h).
        unsafe {
            if let Some(address) = wrong("start") {
                calls.start = std::mem::transmute::<*mut c_void, Start>(address);
            }
            if let Some(address) = wrong("step") {
                calls.step = std::mem::transmute::<*mut c_void, Step>(address);
            }
            if let Some(address) = wrong("run") {
                calls.run = std::mem::transmute::<*mut c_void, Run>(address);
            }
            if let Some(address) = wrong("answer") {
                calls.answer = std::mem::transmute::<*mut c_void, Answer>(address);
            }
            if let Some(address) = wrong("state") {
                calls.state = std::mem::transmute::<*mut c_void, Question>(address);
            }
            if let Some(address) = wrong("count") {
                calls.count = std::mem::transmute::<*mut c_void, Question>(address);
            }
        }
        match found {
            0 => Err(format!("{file}: has no wrong call")),
            _ => Ok(calls),
        }
    }
}
