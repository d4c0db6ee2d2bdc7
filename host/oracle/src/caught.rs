//! Catches goko's panics and tells them apart. While a call of goko's runs, the standard
//! panic message is kept back on this thread.

use statrs::function::gamma::PastTableEnd;
use std::any::Any;
use std::cell::Cell;
use std::panic::{catch_unwind, set_hook, take_hook, AssertUnwindSafe};
use std::sync::Once;

/// How a call of goko's broke off.
#[derive(Debug, Clone, PartialEq, Eq)]
pub enum Panic {
    /// `unwrap` met `None`: in a reading, an evidence child that the prior lacks.
    UnwrapNone,
    /// A table was read past its last index.
    PastTableEnd,
    /// Anything else, by its message.
    Other(String),
}

thread_local! {
    static QUIET: Cell<bool> = const { Cell::new(false) };
}

static HOOK: Once = Once::new();

/// What `call` gives, or how it broke off.
pub fn caught<T>(call: impl FnOnce() -> T) -> Result<T, Panic> {
    HOOK.call_once(keep_quiet_back);
    let before = QUIET.with(|quiet| quiet.replace(true));
    let result = catch_unwind(AssertUnwindSafe(call));
    QUIET.with(|quiet| quiet.set(before));
    result.map_err(|payload| told_apart(&*payload))
}

fn keep_quiet_back() {
    let usual = take_hook();
    set_hook(Box::new(move |info| {
        if !QUIET.with(Cell::get) {
            usual(info)
        }
    }));
}

fn told_apart(payload: &(dyn Any + Send)) -> Panic {
    if payload.is::<PastTableEnd>() {
        return Panic::PastTableEnd;
    }
    let message = payload.downcast_ref::<&str>().map(|text| text.to_string());
    let message = message.or_else(|| payload.downcast_ref::<String>().cloned()).unwrap_or_default();
    if message == "called `Option::unwrap()` on a `None` value" {
        Panic::UnwrapNone
    } else {
        Panic::Other(message)
    }
}
