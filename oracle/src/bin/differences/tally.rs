//! What was seen to be as docs/DIFFERENCES.md says, and what was not.

use std::panic::{catch_unwind, AssertUnwindSafe};

#[derive(Default)]
pub struct Tally {
    pub held: usize,
    pub broken: usize,
}

impl Tally {
    /// What the Rust does, beside what docs/DIFFERENCES.md says that it does.
    pub fn see(&mut self, what: &str, written: &str, run: impl FnOnce() -> String) {
        let done = catch_unwind(AssertUnwindSafe(run)).unwrap_or_else(|panic| {
            let text = panic
                .downcast_ref::<String>()
                .cloned()
                .or_else(|| panic.downcast_ref::<&str>().map(|s| s.to_string()));
            format!("panics: {}", text.unwrap_or_default())
        });
        if done == written {
            self.held += 1;
            println!("{}: {}", what, done);
        } else {
            self.broken += 1;
            println!("{}: {} BUT WRITTEN IS {}", what, done, written);
        }
    }
}
