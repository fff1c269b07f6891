//! Catches panics and returns their place, without a message on the error stream.

use std::cell::{Cell, RefCell};
use std::panic::{self, AssertUnwindSafe, PanicHookInfo};
use std::sync::Once;

thread_local! {
    /// Whether this thread is inside `caught`. Panics elsewhere, as in a test, are still printed.
    static WATCHED: Cell<bool> = const { Cell::new(false) };
    /// Where the last watched panic was.
    static PLACE: RefCell<String> = const { RefCell::new(String::new()) };
}

/// The file's name and line, without the folders that it happened to lie in.
fn place_of(info: &PanicHookInfo<'_>) -> String {
    let Some(location) = info.location() else {
        return "an unknown place".to_owned();
    };
    let file = location.file().rsplit('/').next().unwrap_or("");
    format!("{file}:{}", location.line())
}

fn install_hook() {
    static ONCE: Once = Once::new();
    ONCE.call_once(|| {
        let earlier = panic::take_hook();
        panic::set_hook(Box::new(move |info| {
            if WATCHED.get() {
                PLACE.set(place_of(info));
            } else {
                earlier(info);
            }
        }));
    });
}

/// What `work` gives, or the place of its panic.
pub fn caught<T>(work: impl FnOnce() -> T) -> Result<T, String> {
    install_hook();
    WATCHED.set(true);
    let outcome = panic::catch_unwind(AssertUnwindSafe(work));
    WATCHED.set(false);
    outcome.map_err(|_| PLACE.take())
}
