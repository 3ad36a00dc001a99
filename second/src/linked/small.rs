//! How often each thing that a small card's list may bring came in a run.

use super::tally::POLICIES;
use crate::card::{Card, LONGEST_SMALL_PERIOD as LONGEST, SMALL_PERIODS};
use crate::case::Case;
use crate::counts::Counts;
use crate::paper::{self, Answer, Refusal, Task, MOST_TASKS};
use crate::verdict::Verdict;

/// A run without any of these fails.
const LINES: [&str; 25] = [
    "small card, refused 1",
    "small card, refused 1, and 9 applies",
    "small card, refused 2",
    "small card, refused 3",
    "small card, refused 4",
    "small card, refused 5",
    "small card, refused 3 to 5, 9 of a later task",
    "small card, refused 7",
    "small card, refused 8",
    "refused 9, and no other refusal applies",
    "refused 9, a task above 0",
    "refused 9, and 3 of the same task",
    "refused 9, and 4 of the same task",
    "refused 9, and 5 of the same task",
    "refused 9, and 2 of a later task",
    "refused 9, and 3 to 5 of a later task",
    "refused 9, on a wide card 6",
    "refused 9, on a wide card 7 or 8",
    "refused 9, a period beside one that it has",
    "refused 9, a multiple of the longest period",
    "refused 9, another longer period",
    "small card, overloaded",
    "small card, first miss after M + H",
    "small card, 16 tasks, feasible",
    "small card, H 240, feasible",
];

/// These come under each policy.
const UNDER_EACH: [&str; 2] = ["small card, missed", "small card, feasible"];

fn under(line: &str, policy: u64) -> String {
    format!("{line}, {}", POLICIES[policy as usize])
}

/// Each line of the table, and that a run without it fails.
pub fn lines() -> impl Iterator<Item = (String, bool)> {
    let under_each = UNDER_EACH
        .into_iter()
        .flat_map(|line| (0..paper::POLICY_COUNT).map(move |policy| under(line, policy)));
    let lines = LINES.into_iter().map(String::from);
    lines.chain(under_each).map(|line| (line, true))
}

pub fn add(counts: &mut Counts, case: &Case, verdict: &Verdict) {
    if case.card != Card::Small.number() {
        return;
    }
    let tasks = paper::tasks_of(&case.list);
    match verdict.answer {
        Answer::NotAsked => {}
        Answer::Refused { number: 9, task } => {
            add_same_task(counts, &verdict.refusals, task);
            add_later_tasks(counts, &verdict.refusals, task);
            add_on_wide(counts, case, &tasks);
            add_period(counts, tasks[task as usize].period);
        }
        Answer::Refused { number, .. } => add_other(counts, &verdict.refusals, number),
        Answer::Overloaded { .. } => counts.note("small card, overloaded"),
        Answer::Missed { instant, .. } => {
            counts.note(&under("small card, missed", case.policy));
            let (startup, _) = paper::needed(&tasks).expect("the list is not refused");
            let late = instant > startup as u64;
            counts.note_if(late, "small card, first miss after M + H");
        }
        Answer::Feasible { hyperperiod, .. } => {
            counts.note(&under("small card, feasible", case.policy));
            let full = tasks.len() == MOST_TASKS;
            counts.note_if(full, "small card, 16 tasks, feasible");
            counts.note_if(hyperperiod == LONGEST, "small card, H 240, feasible");
        }
    }
}

fn add_other(counts: &mut Counts, refusals: &[Refusal], number: u64) {
    counts.note(&format!("small card, refused {number}"));
    let timer = refusals.iter().any(|&(number, _)| number == 9);
    counts.note_if(number == 1 && timer, "small card, refused 1, and 9 applies");
    // Refusal 9 of the same task would have come before these.
    counts.note_if(
        (3..=5).contains(&number) && timer,
        "small card, refused 3 to 5, 9 of a later task",
    );
}

fn add_same_task(counts: &mut Counts, refusals: &[Refusal], task: u64) {
    counts.note_if(task > 0, "refused 9, a task above 0");
    counts.note_if(
        refusals.len() == 1,
        "refused 9, and no other refusal applies",
    );
    for number in 3..=5 {
        counts.note_if(
            refusals.contains(&(number, task)),
            &format!("refused 9, and {number} of the same task"),
        );
    }
}

fn add_later_tasks(counts: &mut Counts, refusals: &[Refusal], task: u64) {
    let later = |numbers: &[u64]| {
        refusals
            .iter()
            .any(|(number, of)| *of > task && numbers.contains(number))
    };
    counts.note_if(later(&[2]), "refused 9, and 2 of a later task");
    counts.note_if(later(&[3, 4, 5]), "refused 9, and 3 to 5 of a later task");
}

/// What the same call would be refused for on a wide card, where that comes after all tasks.
fn add_on_wide(counts: &mut Counts, case: &Case, tasks: &[Task]) {
    let wide = paper::refusals(Card::Wide, tasks, case.startup_len, case.cycle_len);
    let first = wide.first().map(|&(number, _)| number);
    counts.note_if(first == Some(6), "refused 9, on a wide card 6");
    let room = matches!(first, Some(7 | 8));
    counts.note_if(room, "refused 9, on a wide card 7 or 8");
}

fn add_period(counts: &mut Counts, period: u64) {
    let beside = [period - 1, period + 1];
    counts.note_if(
        beside.iter().any(|beside| SMALL_PERIODS.contains(beside)),
        "refused 9, a period beside one that it has",
    );
    let multiple = period.is_multiple_of(LONGEST);
    counts.note_if(multiple, "refused 9, a multiple of the longest period");
    counts.note_if(
        period > LONGEST && !multiple,
        "refused 9, another longer period",
    );
}
