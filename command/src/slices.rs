//! What a call of the library is lent: each thread has its own.

use gimbuka::{MOST_MODEL_WORDS, WORK_SIZE};
use std::cell::RefCell;

pub struct Slices {
    pub work: Vec<u32>,
    /// With room for every countermodel, so that 23 never comes.
    pub out: Vec<u32>,
}

thread_local! {
    static SLICES: RefCell<Slices> =
        RefCell::new(Slices { work: vec![0; WORK_SIZE], out: vec![0; MOST_MODEL_WORDS] });
}

/// Lends the thread's slices. They are not asked for again inside.
pub fn with_slices<T>(call: impl FnOnce(&mut Slices) -> T) -> T {
    SLICES.with_borrow_mut(call)
}
