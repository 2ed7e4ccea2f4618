//! For tests of the tests: what a wrong implementation is found out by.

use std::panic::{catch_unwind, AssertUnwindSafe};

/// What the work ends with, if it panics.
pub fn found(work: impl FnOnce()) -> String {
    let Err(payload) = catch_unwind(AssertUnwindSafe(work)) else { return String::new() };
    let words = payload.downcast_ref::<&str>().map(|&words| words.into());
    words.or_else(|| payload.downcast_ref().cloned()).unwrap_or_default()
}
