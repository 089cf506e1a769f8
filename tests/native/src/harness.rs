//! A group of tests, each of which fails by panicking, and its count.

use std::panic::{catch_unwind, AssertUnwindSafe};
use std::time::Instant;

/// Passed and failed tests of a group.
#[derive(Default)]
pub struct Group {
    pub passed: u32,
    pub failed: u32,
}

impl Group {
    /// Runs a test, which fails by panicking and otherwise says what it saw.
    pub fn test(&mut self, name: &str, body: impl FnOnce() -> String) {
        let start = Instant::now();
        if let Some(saw) = self.count(name, body) {
            println!("ok      {name} ({saw}{}{:.1} s)", if saw.is_empty() { "" } else { "; " }, start.elapsed().as_secs_f32());
        }
    }

    /// Runs a test that sees nothing worth a word.
    pub fn plain(&mut self, name: &str, body: impl FnOnce()) {
        self.test(name, || {
            body();
            String::new()
        });
    }

    /// Runs a test that is told only where it fails.
    pub fn quiet(&mut self, name: &str, body: impl FnOnce()) {
        self.count(name, body);
    }

    /// Counts a test, tells of it where it fails, and gives what it saw where it passes.
    fn count<T>(&mut self, name: &str, body: impl FnOnce() -> T) -> Option<T> {
        match catch_unwind(AssertUnwindSafe(body)) {
            Ok(saw) => {
                self.passed += 1;
                Some(saw)
            }
            Err(panic) => {
                self.failed += 1;
                println!("FAILED  {name}: {}", said(&*panic));
                None
            }
        }
    }
}

/// How a test that must fail fails.
pub fn caught(test: impl Fn()) -> String {
    match catch_unwind(AssertUnwindSafe(test)) {
        Ok(()) => panic!("not found"),
        Err(panic) => said(&*panic).chars().take(60).collect(),
    }
}

/// The words of a panic.
pub fn said(panic: &dyn std::any::Any) -> &str {
    let owned = panic.downcast_ref::<String>().map(String::as_str);
    owned.or(panic.downcast_ref::<&str>().copied()).unwrap_or("a panic without words")
}
