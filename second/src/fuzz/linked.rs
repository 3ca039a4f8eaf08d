//! Another checker's test of refusal 9, linked as a function of C, on the same
//! stores.

use super::stores::{stores, Case};
use crate::store::form::LENGTH;

/// Store and its length, working slice and its length; 0, 8 or 9.
pub type Check = unsafe extern "C" fn(*const u8, usize, *mut u8, usize) -> i32;

/// What the other one needs.
#[derive(Clone, Copy)]
pub struct Linked {
    pub check: Check,
    /// The documented length of the working slice.
    pub working: usize,
}

impl Linked {
    /// Calls the function with slices of their lengths.
    fn call(&self, store: &[u8], working: &mut [u8]) -> i32 {
        // Each pointer comes with the length of the slice it points to.
        unsafe {
            (self.check)(
                store.as_ptr(),
                store.len(),
                working.as_mut_ptr(),
                working.len(),
            )
        }
    }

    /// At least `count` stores: how many are right, how many not, or the first
    /// that the two see differently. "the working slice is zero after every
    /// call": it is lent full of something else.
    pub fn compare(&self, seed: u64, count: u64) -> Result<[u64; 2], String> {
        let mut working = vec![0; self.working];
        let mut counts = [0; 2];
        stores(seed, count, &mut |case: &Case| {
            let due = if case.verdict.is_ok() { 0 } else { 9 };
            counts[usize::from(due == 9)] += 1;
            working.fill(case.index as u8);
            let got = self.call(case.bytes, &mut working);
            let label = case.label();
            if got != due {
                let why = case.verdict.as_ref().err();
                return Err(format!("{label}: {got}, due is {due}: {why:?}"));
            }
            match working.iter().position(|&byte| byte != 0) {
                Some(at) => Err(format!("{label}: byte {at} of the working slice is left")),
                None => Ok(()),
            }
        })?;
        let short = vec![1; LENGTH - 1];
        match self.call(&short, &mut working) {
            8 => Ok(counts),
            got => Err(format!("a store of a byte less: {got}, due is 8")),
        }
    }
}
