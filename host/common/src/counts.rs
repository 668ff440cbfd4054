//! What passed and what failed, in groups.
use std::process::ExitCode;

#[derive(Clone, Copy, Default)]
pub struct Counts {
    passed: u64,
    failed: u64,
    /// How many failed before the group that runs.
    failed_before: u64,
}

impl Counts {
    pub fn expect(&mut self, holds: bool, message: impl FnOnce() -> String) {
        if holds {
            self.passed += 1;
            return;
        }
        self.failed += 1;
        if self.failed <= 20 {
            println!("FAILED {}", message());
        }
    }

    /// How many failed in the group that ends here.
    pub fn close(&mut self) -> u64 {
        let failed = self.failed - self.failed_before;
        self.failed_before = self.failed;
        failed
    }

    /// Prints the last line.
    pub fn finish(self) -> ExitCode {
        println!("{} passed, {} failed", self.passed, self.failed);
        ExitCode::from((self.failed > 0) as u8)
    }
}
