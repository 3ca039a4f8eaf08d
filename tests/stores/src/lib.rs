//! The verified check of stores (crates/check_call).

extern "C" {
    /// crates/check_call: a slice is passed as its address and its length.
    fn store_check(store: *const u8, store_len: usize, work: *mut u8, work_len: usize) -> usize;
}

/// The documented length of the working slice.
pub const WORKING: usize = 524_288;

/// 0, 8 or 9. The working slice is zero afterwards.
pub fn check(store: &[u8], work: &mut [u8]) -> usize {
    // Each pointer comes with the length of the slice it points to, and the slices do not overlap.
    unsafe { store_check(store.as_ptr(), store.len(), work.as_mut_ptr(), work.len()) }
}

/// The same as the second checker calls it: the number as an `i32`, -1 for one that is none.
///
/// # Safety
///
/// Each pointer comes with the length of the slice it points to, and the slices do not overlap.
pub unsafe extern "C" fn linked(
    store: *const u8,
    store_len: usize,
    work: *mut u8,
    work_len: usize,
) -> i32 {
    i32::try_from(store_check(store, store_len, work, work_len)).unwrap_or(-1)
}
