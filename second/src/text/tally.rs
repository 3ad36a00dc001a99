//! How often each kind of text and each answer came in a run.

use super::inputs::{self, Input};
use super::reader::{LONGEST_INPUT, POLICIES};
use super::report::Output;
use super::small;
use crate::counts::Counts;
use crate::paper::{Answer, IDLE, MOST_HYPERPERIOD, MOST_OFFSET, MOST_TASKS};
use crate::verdict::Verdict;

/// What comes of a text; a run without any of these fails, and so does one without a kind of text.
const LINES: [&str; 32] = [
    "unread 0",
    "unread 1",
    "unread, a line from 2 to 17",
    "unread, a line from 18 to 255",
    "unread, a line past 255",
    "refused 1",
    "refused 1, no task",
    "refused 1, 17 tasks",
    "refused 1, 4,096 bytes",
    "refused 2",
    "refused 3",
    "refused 4",
    "refused 5",
    "refused 6",
    "refused 9",
    "refused, a task past 9",
    "refused, and another refusal applies",
    "overloaded",
    "missed, list",
    "missed, rm",
    "missed, dm",
    "missed, edf",
    "missed, a task past 9",
    "feasible, list",
    "feasible, rm",
    "feasible, dm",
    "feasible, edf",
    "feasible, an idle slot in both tables",
    "feasible, a task past 9 in both tables",
    "feasible, a preemption at M + 2H",
    "feasible, M and H 16,384",
    "feasible, an output past 65,535 bytes",
];

pub struct Tally {
    pub counts: Counts,
}

impl Tally {
    /// For texts of at most this many bytes.
    pub fn up_to(longest: usize) -> Tally {
        let mut lines = inputs::names(longest);
        lines.extend(LINES.into_iter().chain(small::LINES).map(String::from));
        Tally {
            counts: Counts::of(lines.into_iter().map(|line| (line, true))),
        }
    }

    pub fn add_text(&mut self, input: &Input, output: &Output) {
        self.counts.note(&input.made);
        match &output.read {
            Err(line) => {
                self.add_unread(*line);
                small::add_unread(&mut self.counts, &input.bytes, *line);
            }
            Ok((told, verdict)) => {
                small::add_read(&mut self.counts, told, verdict);
                let tasks = told.tasks.len();
                let policy = POLICIES[told.policy as usize];
                self.add_verdict(verdict, policy, tasks, input.bytes.len());
                let long = output.bytes.len() > 65_535;
                self.counts
                    .note_if(long, "feasible, an output past 65,535 bytes");
            }
        }
    }

    fn add_unread(&mut self, line: u64) {
        self.counts.note(match line {
            0 => "unread 0",
            1 => "unread 1",
            2..=17 => "unread, a line from 2 to 17",
            18..=255 => "unread, a line from 18 to 255",
            _ => "unread, a line past 255",
        });
    }

    fn add_verdict(&mut self, verdict: &Verdict, policy: &str, tasks: usize, bytes: usize) {
        match verdict.answer {
            Answer::Refused { number, task } => {
                self.counts.note(&format!("refused {number}"));
                self.counts.note_if(tasks == 0, "refused 1, no task");
                self.counts
                    .note_if(tasks == MOST_TASKS + 1, "refused 1, 17 tasks");
                self.counts
                    .note_if(bytes == LONGEST_INPUT, "refused 1, 4,096 bytes");
                self.counts.note_if(task > 9, "refused, a task past 9");
                let several = verdict.refusals.len() > 1;
                self.counts
                    .note_if(several, "refused, and another refusal applies");
            }
            Answer::Overloaded { .. } => self.counts.note("overloaded"),
            Answer::Missed { task, .. } => {
                self.counts.note(&format!("missed, {policy}"));
                self.counts.note_if(task > 9, "missed, a task past 9");
            }
            Answer::Feasible { .. } => {
                self.counts.note(&format!("feasible, {policy}"));
                self.add_tables(verdict);
            }
            Answer::NotAsked => {}
        }
    }

    fn add_tables(&mut self, verdict: &Verdict) {
        let (startup, cycle) = (&verdict.startup, &verdict.cycle);
        let idle = [startup, cycle].map(|table| table.contains(&IDLE));
        let two_digits = |entry: &u8| *entry > 9 && *entry != IDLE;
        let late = [startup, cycle].map(|table| table.iter().any(two_digits));
        let longest = cycle.len() as u64 == MOST_HYPERPERIOD
            && (startup.len() - cycle.len()) as u64 == MOST_OFFSET;
        self.counts
            .note_if(idle == [true; 2], "feasible, an idle slot in both tables");
        self.counts
            .note_if(late == [true; 2], "feasible, a task past 9 in both tables");
        self.counts.note_if(longest, "feasible, M and H 16,384");
        let last = verdict.last_preemption;
        self.counts
            .note_if(last, "feasible, a preemption at M + 2H");
    }
}
