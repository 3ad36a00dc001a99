//! The library's entries for a list, each called on a case and its buffers.

use super::compare::Outcome;
use super::lent::Buffers;
use crate::card::Card;
use crate::case::Case;
use crate::paper::{self, TASK_WORDS};

/// The library's entries that take this case, each over the same buffers, with its name.
pub fn by_library(case: &Case, buffers: &Buffers) -> Vec<(&'static str, Outcome)> {
    // Words that are left over are no task, so there is nothing to lend as tasks.
    let whole = case.list.len().is_multiple_of(TASK_WORDS);
    ENTRIES
        .into_iter()
        .filter(|entry| entry.names_card || case.card == Card::Wide.number())
        .filter(|entry| whole || !entry.takes_tasks)
        .map(|entry| (entry.name, (entry.call)(case, buffers.clone())))
        .collect()
}

struct Entry {
    name: &'static str,
    /// Otherwise every list is one for a wide card.
    names_card: bool,
    takes_tasks: bool,
    call: fn(&Case, Buffers) -> Outcome,
}

#[rustfmt::skip]
const ENTRIES: [Entry; 4] = [
    Entry { name: "words", names_card: false, takes_tasks: false, call: by_words },
    Entry { name: "tasks", names_card: false, takes_tasks: true, call: by_tasks },
    Entry { name: "words and card", names_card: true, takes_tasks: false, call: by_words_card },
    Entry { name: "tasks and card", names_card: true, takes_tasks: true, call: by_tasks_card },
];

fn by_words(case: &Case, buffers: Buffers) -> Outcome {
    over_words(buffers, |list, startup, cycle, row| {
        sholakpite::check_words(case.policy, list, startup, cycle, row)
    })
}

fn by_words_card(case: &Case, buffers: Buffers) -> Outcome {
    over_words(buffers, |list, startup, cycle, row| {
        sholakpite::check_words_card(case.card, case.policy, list, startup, cycle, row)
    })
}

fn by_tasks(case: &Case, buffers: Buffers) -> Outcome {
    over_tasks(buffers, |list, startup, cycle, row| {
        sholakpite::check_tasks(case.policy, list, startup, cycle, row)
    })
}

fn by_tasks_card(case: &Case, buffers: Buffers) -> Outcome {
    over_tasks(buffers, |list, startup, cycle, row| {
        sholakpite::check_tasks_card(case.card, case.policy, list, startup, cycle, row)
    })
}

fn over_words(
    mut buffers: Buffers,
    call: impl FnOnce(&[u64], &mut [u8], &mut [u8], &mut [u64]) -> u64,
) -> Outcome {
    let code = call(
        buffers.list.part(),
        buffers.startup.part_mut(),
        buffers.cycle.part_mut(),
        buffers.row.part_mut(),
    );
    Outcome { code, buffers }
}

fn over_tasks(
    mut buffers: Buffers,
    call: impl FnOnce(&[sholakpite::Task], &mut [u8], &mut [u8], &mut [u64]) -> u64,
) -> Outcome {
    let tasks = paper::tasks_of(buffers.list.part());
    let list: Vec<sholakpite::Task> = tasks.iter().map(lend).collect();
    let code = call(
        &list,
        buffers.startup.part_mut(),
        buffers.cycle.part_mut(),
        buffers.row.part_mut(),
    );
    // Written back, so that a task that was changed is seen.
    let words: Vec<u64> = list.iter().flat_map(words_of).collect();
    buffers.list.part_mut().copy_from_slice(&words);
    Outcome { code, buffers }
}

fn lend(task: &paper::Task) -> sholakpite::Task {
    sholakpite::Task {
        offset: task.offset,
        run: task.run,
        deadline: task.deadline,
        period: task.period,
    }
}

fn words_of(task: &sholakpite::Task) -> [u64; TASK_WORDS] {
    [task.offset, task.run, task.deadline, task.period]
}
