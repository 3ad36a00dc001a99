//! How often each thing of interest came in a run.

use std::collections::HashMap;

pub struct Counts {
    /// Each line of the table, and whether a run without it fails.
    lines: Vec<(String, bool)>,
    counts: HashMap<String, u64>,
}

impl Counts {
    pub fn of(lines: impl IntoIterator<Item = (String, bool)>) -> Counts {
        Counts {
            lines: lines.into_iter().collect(),
            counts: HashMap::new(),
        }
    }

    pub fn note(&mut self, line: &str) {
        debug_assert!(self.lines.iter().any(|(name, _)| name == line), "{line}");
        *self.counts.entry(line.to_string()).or_default() += 1;
    }

    pub fn note_if(&mut self, applies: bool, line: &str) {
        if applies {
            self.note(line);
        }
    }

    fn count(&self, line: &str) -> u64 {
        self.counts.get(line).copied().unwrap_or(0)
    }

    pub fn print(&self) {
        for (line, required) in &self.lines {
            let mark = if *required { "" } else { "  (not required)" };
            println!("  {line:<46}{:>9}{mark}", self.count(line));
        }
    }

    /// Says which lines must come in every run and did not; true when there are none.
    pub fn all_came(&self) -> bool {
        let missing = |line: &&(String, bool)| line.1 && self.count(&line.0) == 0;
        let never_came: Vec<_> = self.lines.iter().filter(missing).collect();
        for (line, _) in &never_came {
            println!("FAILED: never came in this run: {line}");
        }
        never_came.is_empty()
    }
}
