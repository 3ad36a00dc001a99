//! How often each answer and each thing of interest came in a run.

use super::small;
use crate::card::Card;
use crate::case::Case;
use crate::counts::Counts;
use crate::paper::{
    self, Answer, Policy, MOST_HYPERPERIOD, MOST_OFFSET, MOST_TASKS, ROW_WORDS, TASK_WORDS,
};
use crate::verdict::Verdict;
use std::collections::HashSet;

/// Each line of the table, and whether a run without it fails.
const LINES: [(&str, bool); 49] = [
    ("refused 1", true),
    ("refused 1, no task", true),
    ("refused 1, 17 tasks", true),
    ("refused 1, 1,000 tasks", true),
    ("refused 2", true),
    ("refused 3", true),
    ("refused 4", true),
    ("refused 5", true),
    ("refused 6", true),
    ("refused 7", true),
    ("refused 7, startup one short", true),
    ("refused 8", true),
    ("refused 8, cycle one short", true),
    ("refused 9", true),
    ("refused, and another refusal applies", true),
    ("code 4, card above 1 alone", true),
    ("code 4, policy above 3 alone", true),
    ("code 4, words not a multiple of four alone", true),
    ("code 4, row shorter than eight alone", true),
    ("code 4, several reasons", true),
    ("overloaded", true),
    ("overloaded by one slot", true),
    ("missed, list order", true),
    ("missed, rate monotonic", true),
    ("missed, deadline monotonic", true),
    ("missed, EDF", true),
    ("feasible, list order", true),
    ("feasible, rate monotonic", true),
    ("feasible, deadline monotonic", true),
    ("feasible, EDF", true),
    ("an offset beyond H, not refused", true),
    ("first miss within the first H", true),
    ("first miss after M + H, list order", true),
    ("first miss after M + H, rate monotonic", true),
    ("first miss after M + H, deadline monotonic", true),
    ("first miss after M + H, EDF", true),
    ("first miss after M + H + H/2", true),
    ("H at least 8,192, not refused", true),
    ("H exactly 16,384, not refused", false),
    ("M exactly 16,384, not refused", false),
    ("preemption at M + 2H", true),
    ("EDF, an earlier release before a lower task", true),
    ("load exactly H, feasible", true),
    ("one task, feasible", true),
    ("16 tasks, feasible", true),
    ("startup longer than needed, tables written", true),
    ("cycle longer than needed, tables written", true),
    ("both buffers exact, tables written", true),
    ("row longer than eight words", true),
];

pub const POLICIES: [&str; 4] = ["list order", "rate monotonic", "deadline monotonic", "EDF"];

pub struct Tally {
    pub counts: Counts,
    seen: HashSet<(u64, u64, Vec<u64>)>,
}

impl Tally {
    pub fn of_lists() -> Tally {
        Tally {
            counts: Counts::of(
                LINES
                    .map(|(line, required)| (line.to_string(), required))
                    .into_iter()
                    .chain(small::lines()),
            ),
            seen: HashSet::new(),
        }
    }

    pub fn add(&mut self, case: &Case, verdict: &Verdict) {
        self.counts
            .note_if(case.row_len > ROW_WORDS, "row longer than eight words");
        small::add(&mut self.counts, case, verdict);
        match verdict.answer {
            Answer::NotAsked => self.add_not_asked(case),
            Answer::Refused { number, .. } => self.add_refused(case, verdict, number),
            Answer::Overloaded { load, hyperperiod } => {
                self.counts.note("overloaded");
                self.counts
                    .note_if(load == hyperperiod + 1, "overloaded by one slot");
                self.add_list(case, verdict);
            }
            Answer::Missed { instant, .. } => {
                self.add_missed(case, instant);
                self.add_list(case, verdict);
            }
            Answer::Feasible { .. } => {
                self.add_feasible(case, verdict);
                self.add_list(case, verdict);
            }
        }
    }

    fn add_not_asked(&mut self, case: &Case) {
        let card = Card::of(case.card).is_none();
        let policy = Policy::of(case.policy).is_none();
        let words = !case.list.len().is_multiple_of(TASK_WORDS);
        let row = case.row_len < ROW_WORDS;
        self.counts.note(match [card, policy, words, row] {
            [true, false, false, false] => "code 4, card above 1 alone",
            [false, true, false, false] => "code 4, policy above 3 alone",
            [false, false, true, false] => "code 4, words not a multiple of four alone",
            [false, false, false, true] => "code 4, row shorter than eight alone",
            _ => "code 4, several reasons",
        });
    }

    fn add_refused(&mut self, case: &Case, verdict: &Verdict, number: u64) {
        self.counts.note(&format!("refused {number}"));
        match case.list.len() / TASK_WORDS {
            0 => self.counts.note("refused 1, no task"),
            17 => self.counts.note("refused 1, 17 tasks"),
            1_000 => self.counts.note("refused 1, 1,000 tasks"),
            _ => {}
        }
        // Past refusal 6 the list has its M + H and H.
        if number == 7 {
            let short = case.startup_len as u64 + 1 == needed(case).0;
            self.counts.note_if(short, "refused 7, startup one short");
        }
        if number == 8 {
            let short = case.cycle_len as u64 + 1 == needed(case).1;
            self.counts.note_if(short, "refused 8, cycle one short");
        }
        let several = verdict.refusals.len() > 1;
        self.counts
            .note_if(several, "refused, and another refusal applies");
    }

    fn add_missed(&mut self, case: &Case, instant: u64) {
        let policy = POLICIES[case.policy as usize];
        let (startup, cycle) = needed(case);
        self.counts.note(&format!("missed, {policy}"));
        self.counts
            .note_if(instant <= cycle, "first miss within the first H");
        self.counts.note_if(
            instant > startup,
            &format!("first miss after M + H, {policy}"),
        );
        let half = startup + cycle / 2;
        self.counts
            .note_if(instant > half, "first miss after M + H + H/2");
        self.add_buffers(case);
    }

    fn add_feasible(&mut self, case: &Case, verdict: &Verdict) {
        let Answer::Feasible {
            hyperperiod, load, ..
        } = verdict.answer
        else {
            return;
        };
        let tasks = case.list.len() / TASK_WORDS;
        self.counts
            .note(&format!("feasible, {}", POLICIES[case.policy as usize]));
        self.counts.note_if(tasks == 1, "one task, feasible");
        self.counts
            .note_if(tasks == MOST_TASKS, "16 tasks, feasible");
        self.counts
            .note_if(load == hyperperiod, "load exactly H, feasible");
        self.counts
            .note_if(verdict.last_preemption, "preemption at M + 2H");
        self.add_buffers(case);
    }

    fn add_buffers(&mut self, case: &Case) {
        let (startup, cycle) = needed(case);
        let startup_longer = case.startup_len as u64 > startup;
        let cycle_longer = case.cycle_len as u64 > cycle;
        let exact = !startup_longer && !cycle_longer;
        self.counts
            .note_if(startup_longer, "startup longer than needed, tables written");
        self.counts
            .note_if(cycle_longer, "cycle longer than needed, tables written");
        self.counts
            .note_if(exact, "both buffers exact, tables written");
    }

    /// What is noted of every list that is not refused.
    fn add_list(&mut self, case: &Case, verdict: &Verdict) {
        self.counts.note_if(
            verdict.release_decided,
            "EDF, an earlier release before a lower task",
        );
        let (startup, hyperperiod) = needed(case);
        let offset = startup - hyperperiod;
        self.seen
            .insert((case.card, case.policy, case.list.clone()));
        self.counts
            .note_if(offset > hyperperiod, "an offset beyond H, not refused");
        self.counts
            .note_if(hyperperiod >= 8_192, "H at least 8,192, not refused");
        let most = hyperperiod == MOST_HYPERPERIOD;
        self.counts.note_if(most, "H exactly 16,384, not refused");
        self.counts
            .note_if(offset == MOST_OFFSET, "M exactly 16,384, not refused");
    }

    pub fn print(&self) {
        self.counts.print();
        let different = "different calls, not refused";
        println!("  {different:<46}{:>9}", self.seen.len());
    }
}

/// M + H and H of a list that is not refused.
fn needed(case: &Case) -> (u64, u64) {
    let tasks = paper::tasks_of(&case.list);
    let (startup, cycle) = paper::needed(&tasks).expect("the list is not refused");
    (startup as u64, cycle as u64)
}
