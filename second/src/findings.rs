//! What a run finds, and how it is told.

use std::process::ExitCode;
use std::time::Instant;

const MOST_PRINTED: u64 = 10;

/// How many lists or texts differ; the first few are printed.
pub struct Findings {
    what: &'static str,
    different: u64,
}

impl Findings {
    pub fn of(what: &'static str) -> Findings {
        Findings { what, different: 0 }
    }

    /// What differs in one of them, which may be nothing.
    pub fn note(&mut self, number: u64, lines: &[String]) {
        if lines.is_empty() {
            return;
        }
        self.different += 1;
        if self.different <= MOST_PRINTED {
            let lines = lines.join("\n  ");
            println!("DIFFERENT: {} {number}\n  {lines}", self.what);
        }
    }

    /// Says how many differ; true when none does.
    pub fn none(&self) -> bool {
        if self.different > 0 {
            println!("FAILED: {} {}s differ", self.different, self.what);
        }
        self.different == 0
    }
}

pub fn timed(run: impl FnOnce() -> bool) -> bool {
    let began = Instant::now();
    let agreed = run();
    println!("{:.1} seconds", began.elapsed().as_secs_f64());
    agreed
}

/// The last line of a run.
pub fn conclude(agreed: bool) -> ExitCode {
    println!("{}", if agreed { "all agree" } else { "FAILED" });
    exit_code(agreed)
}

pub fn exit_code(agreed: bool) -> ExitCode {
    if agreed {
        ExitCode::SUCCESS
    } else {
        ExitCode::FAILURE
    }
}
