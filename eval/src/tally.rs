//! The number of checks that held and that failed.

#[derive(Default)]
pub struct Tally {
    passed: u64,
    failed: u64,
}

impl Tally {
    /// Counts a check. What it was is said only where it fails.
    pub fn check(&mut self, holds: bool, name: impl FnOnce() -> String) {
        if holds {
            self.passed += 1;
        } else {
            self.failed += 1;
            println!("FAILED: {}", name());
        }
    }

    /// Prints the closing line. Whether nothing has failed.
    pub fn close(&self) -> bool {
        println!("{} passed, {} failed", self.passed, self.failed);
        self.failed == 0
    }
}
