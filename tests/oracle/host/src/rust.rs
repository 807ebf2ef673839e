//! Asking the Rust: what it gave, the text it refused with, or how it panicked.

use std::cell::{Cell, RefCell};
use std::panic::{self, AssertUnwindSafe};

#[derive(Debug, Clone, PartialEq, Eq)]
pub struct Panic {
    /// The file's name alone.
    pub file: String,
    pub message: String,
}

impl Panic {
    /// A sum that passed the type's last number, which only a build with overflow checks shows.
    pub fn is_overflow_in(&self, file: &str) -> bool {
        self.file == file && self.message == "attempt to add with overflow"
    }
}

#[derive(Debug, Clone)]
pub enum Answer<T> {
    Gave(T),
    Refused(String),
    Panicked(Panic),
}

thread_local! {
    static ASKING: Cell<bool> = const { Cell::new(false) };
    static LAST: RefCell<Option<Panic>> = const { RefCell::new(None) };
}

/// Panics of the Rust are kept, not printed. To be called once.
pub fn keep_panics() {
    let usual = panic::take_hook();
    panic::set_hook(Box::new(move |info| {
        if !ASKING.get() {
            return usual(info);
        }
        let file = info.location().map_or("", |l| l.file());
        let payload = info.payload();
        let message = payload.downcast_ref::<&str>().copied().or_else(|| payload.downcast_ref::<String>().map(String::as_str)).unwrap_or("");
        let file = file.rsplit('/').next().unwrap_or("").to_string();
        LAST.set(Some(Panic { file, message: message.to_string() }));
    }));
}

pub fn ask<T>(question: impl FnOnce() -> Result<T, String>) -> Answer<T> {
    ASKING.set(true);
    let answer = panic::catch_unwind(AssertUnwindSafe(question));
    ASKING.set(false);
    match answer {
        Ok(Ok(value)) => Answer::Gave(value),
        Ok(Err(text)) => Answer::Refused(text),
        Err(_) => Answer::Panicked(LAST.take().expect("the hook ran")),
    }
}

/// Document 01's number for a text of the Rust's, by the text's beginning.
pub fn number_of(text: &str, table: &[(&str, u32)]) -> Option<u32> {
    table.iter().find(|(front, _)| text.starts_with(front)).map(|(_, number)| *number)
}
