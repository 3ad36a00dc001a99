//! How often each thing that a card's line may bring came in a run.

use super::reader::{Told, SMALL_LINE};
use crate::card::{Card, LONGEST_SMALL_PERIOD};
use crate::counts::Counts;
use crate::paper::{Answer, MOST_TASKS};
use crate::verdict::Verdict;

/// A run without any of these fails.
pub const LINES: [&str; 18] = [
    "unread, line 1 is a card line",
    "unread, line 2 begins as a card line does",
    "unread, a card line behind a card line",
    "unread, a card line behind a task",
    "unread, a second card line behind a task",
    "unread, a task line behind a card line",
    "unread, a line past 255, small card",
    "small card, refused 1, no task",
    "small card, refused 1, 17 tasks",
    "small card, refused 2",
    "small card, refused 3 to 5",
    "refused 9, a task above 0",
    "refused 9, a task past 9",
    "refused 9, and another refusal applies",
    "small card, overloaded",
    "small card, missed",
    "small card, feasible",
    "small card, feasible, H 240",
];

/// A text whose first line that can't be read is this one; 0 is none.
pub fn add_unread(counts: &mut Counts, text: &[u8], line: u64) {
    let lines: Vec<&[u8]> = text.split_inclusive(|&byte| byte == b'\n').collect();
    let numbered = |number: u64| match number.checked_sub(1) {
        Some(at) => lines.get(at as usize).copied().unwrap_or_default(),
        None => b"",
    };
    let unread = numbered(line);
    let is_small = |line: &[u8]| line == SMALL_LINE.as_bytes();
    // Where line 2 has been read, a card's line there is a good one.
    let small = line > 2 && is_small(numbered(2));
    counts.note_if(small && line > 255, "unread, a line past 255, small card");
    counts.note(match line {
        1 if is_small(unread) => "unread, line 1 is a card line",
        2 if unread.starts_with(b"card") => "unread, line 2 begins as a card line does",
        3 if small && is_small(unread) => "unread, a card line behind a card line",
        3.. if small && is_small(unread) => "unread, a second card line behind a task",
        3.. if is_small(unread) => "unread, a card line behind a task",
        3.. if small && unread.starts_with(b"task") => "unread, a task line behind a card line",
        _ => return,
    });
}

/// A text that is read, and its verdict.
pub fn add_read(counts: &mut Counts, told: &Told, verdict: &Verdict) {
    if told.card != Card::Small {
        return;
    }
    match verdict.answer {
        Answer::Refused { number: 1, .. } => {
            let tasks = told.tasks.len();
            counts.note_if(tasks == 0, "small card, refused 1, no task");
            counts.note_if(tasks == MOST_TASKS + 1, "small card, refused 1, 17 tasks");
        }
        Answer::Refused { number: 2, .. } => counts.note("small card, refused 2"),
        Answer::Refused { number: 9, task } => {
            let several = verdict.refusals.len() > 1;
            counts.note_if(task > 0, "refused 9, a task above 0");
            counts.note_if(task > 9, "refused 9, a task past 9");
            counts.note_if(several, "refused 9, and another refusal applies");
        }
        Answer::Refused { .. } => counts.note("small card, refused 3 to 5"),
        Answer::Overloaded { .. } => counts.note("small card, overloaded"),
        Answer::Missed { .. } => counts.note("small card, missed"),
        Answer::Feasible { hyperperiod, .. } => {
            counts.note("small card, feasible");
            let longest = hyperperiod == LONGEST_SMALL_PERIOD;
            counts.note_if(longest, "small card, feasible, H 240");
        }
        Answer::NotAsked => {}
    }
}
