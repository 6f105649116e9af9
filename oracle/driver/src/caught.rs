//! The Rust's panics as values. The two that document 01 names are told apart
//! by their messages; any other one is an internal error.

use crate::limits::code;
use std::cell::Cell;
use std::panic::{self, AssertUnwindSafe};
use std::sync::Once;

#[derive(Debug, Clone, PartialEq, Eq)]
pub enum RustPanic {
    /// `unreachable!` in `collect_params_with_bound`.
    LeftoverMacro,
    /// `panic!` in `build_param_defns`.
    NoBinder,
    Other(String),
}

impl RustPanic {
    fn of_message(message: &str) -> Self {
        if message.ends_with("macro invocation should be resolved by now") {
            RustPanic::LeftoverMacro
        } else if message.starts_with("Dependent combinator not found: ") {
            RustPanic::NoBinder
        } else {
            RustPanic::Other(message.to_string())
        }
    }

    /// Document 01's code, or the message of a panic it does not name.
    pub fn code(&self) -> Result<u8, String> {
        match self {
            RustPanic::LeftoverMacro => Ok(code::LEFTOVER_MACRO),
            RustPanic::NoBinder => Ok(code::NO_BINDER),
            RustPanic::Other(message) => Err(format!("the Rust panicked: {message}")),
        }
    }
}

thread_local! {
    static QUIET: Cell<bool> = const { Cell::new(false) };
}

/// Runs `action`; a panic inside it prints nothing and comes back as a value.
pub fn catch<T>(action: impl FnOnce() -> T) -> Result<T, RustPanic> {
    silence_once();
    QUIET.set(true);
    let outcome = panic::catch_unwind(AssertUnwindSafe(action));
    QUIET.set(false);
    outcome.map_err(|payload| {
        let message = payload
            .downcast_ref::<String>()
            .map(String::as_str)
            .or_else(|| payload.downcast_ref::<&str>().copied());
        RustPanic::of_message(message.unwrap_or("no message"))
    })
}

/// Panics outside of `catch` keep printing as they would.
fn silence_once() {
    static ONCE: Once = Once::new();
    ONCE.call_once(|| {
        let loud = panic::take_hook();
        panic::set_hook(Box::new(move |info| {
            if !QUIET.get() {
                loud(info);
            }
        }));
    });
}
