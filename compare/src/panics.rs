//! The original panics where document 01 has a refusal: here a panic is an answer.

use std::cell::Cell;
use std::panic::{catch_unwind, set_hook, take_hook, AssertUnwindSafe};

thread_local! {
    static QUIET: Cell<bool> = const { Cell::new(false) };
}

/// Lets `unless_it_panics` keep panics from printing. Any other panic is a fault of the driver and prints as ever.
pub(crate) fn allow_quiet() {
    let print = take_hook();
    set_hook(Box::new(move |info| {
        if !QUIET.get() {
            print(info);
        }
    }));
}

/// What `call` gives; `None`, and nothing printed, where it panics. `call` must not leave half-done work behind that is
/// looked at afterwards.
pub(crate) fn unless_it_panics<T>(call: impl FnOnce() -> T) -> Option<T> {
    QUIET.set(true);
    let given = catch_unwind(AssertUnwindSafe(call));
    QUIET.set(false);
    given.ok()
}
