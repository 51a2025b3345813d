//! What was found, held against what was expected.

use std::fmt::Debug;

#[derive(Default)]
pub struct Checks {
    made: usize,
    failed: usize,
}

impl Checks {
    pub fn equal<T: PartialEq + Debug>(&mut self, what: &str, found: T, expected: T) {
        self.made += 1;
        if found != expected {
            self.failed += 1;
            println!("{what}: found {found:02X?}, expected {expected:02X?}");
        }
    }

    /// True if none failed.
    pub fn tell(&self) -> bool {
        println!("selftest: {} checked, {} failed", self.made, self.failed);
        self.failed == 0
    }
}
