//! The sum of all checks, for the closing line.

pub struct Tally {
    pub passed: u64,
    pub failed: u64,
}

impl Tally {
    pub fn new() -> Self {
        Tally { passed: 0, failed: 0 }
    }

    pub fn count(&mut self, holds: bool) {
        if holds {
            self.passed += 1;
        } else {
            self.failed += 1;
        }
    }

    /// A check with a name, which is printed only where it fails.
    pub fn check(&mut self, name: &str, holds: bool) {
        if !holds {
            println!("FAILED: {name}");
        }
        self.count(holds);
    }
}
