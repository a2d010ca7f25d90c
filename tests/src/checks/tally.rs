//! The count of checks passed and failed.

use std::fmt::Debug;
use std::process::ExitCode;

#[derive(Default)]
pub struct Tally {
    passed: u64,
    failed: u64,
}

impl Tally {
    pub fn check(&mut self, name: &str, outcome: Result<(), String>) {
        match outcome {
            Ok(()) => self.passed += 1,
            Err(why) => {
                self.failed += 1;
                println!("FAILED {name}: {why}");
            }
        }
    }

    /// Prints the last line; success needs at least one check and no failure.
    pub fn finish(&self) -> ExitCode {
        println!("{} passed, {} failed", self.passed, self.failed);
        ExitCode::from((self.failed > 0 || self.passed == 0) as u8)
    }
}

pub fn ensure(holds: bool, why: impl FnOnce() -> String) -> Result<(), String> {
    if holds {
        Ok(())
    } else {
        Err(why())
    }
}

pub fn same<T: PartialEq + Debug>(what: &str, found: T, due: T) -> Result<(), String> {
    ensure(found == due, || {
        format!("{what} is {found:?}, due is {due:?}")
    })
}
