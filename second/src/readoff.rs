//! What is read off the recorded slots: tables, idle counts, preemptions, repetition.

use crate::paper::{Task, IDLE};
use crate::walk::Served;

type Slots = [Option<Served>];

/// One byte for each slot: the task number, or 255 for idle.
pub fn table(slots: &Slots) -> Vec<u8> {
    slots
        .iter()
        .map(|slot| slot.map_or(IDLE, |served| served.task as u8))
        .collect()
}

pub fn idle(table: &[u8]) -> u64 {
    table.iter().filter(|&&entry| entry == IDLE).count() as u64
}

/// Every instant at which a preemption happens, counted over the slots alone.
pub fn preemptions(slots: &Slots, tasks: &[Task]) -> Vec<u64> {
    let mut had: Vec<Vec<u64>> = vec![Vec::new(); tasks.len()];
    let mut instants = Vec::new();
    for t in 1..slots.len() {
        let Some(before) = slots[t - 1] else { continue };
        let given = had_slots(&mut had[before.task], before.number);
        *given += 1;
        let unfinished = *given < tasks[before.task].run;
        let another = slots[t].is_some_and(|served| served != before);
        if unfinished && another {
            instants.push(t as u64);
        }
    }
    instants
}

/// The preemptions for a job that is not due earlier than the one set aside: EDF has none.
pub fn pointless(slots: &Slots, tasks: &[Task]) -> Vec<u64> {
    let due_at = |t: u64| {
        slots[t as usize].map(|Served { task, number }| {
            tasks[task].offset + number * tasks[task].period + tasks[task].deadline
        })
    };
    let mut instants = preemptions(slots, tasks);
    instants.retain(|&t| due_at(t) >= due_at(t - 1));
    instants
}

/// How many slots job `number` has had so far; jobs never served have had 0.
fn had_slots(had: &mut Vec<u64>, number: u64) -> &mut u64 {
    let number = number as usize;
    if had.len() <= number {
        had.resize(number + 1, 0);
    }
    &mut had[number]
}

/// Slots still owed to each task at an instant, just before its releases.
pub fn owed(slots: &Slots, tasks: &[Task], instant: u64) -> Vec<u64> {
    let mut owed: Vec<u64> = tasks
        .iter()
        .map(|task| instant.saturating_sub(task.offset).div_ceil(task.period) * task.run)
        .collect();
    for served in slots[..instant as usize].iter().flatten() {
        owed[served.task] -= 1;
    }
    owed
}

/// The first slot from `from` on that is not served alike one hyperperiod later.
pub fn not_repeated(slots: &Slots, tasks: &[Task], from: u64, hyperperiod: u64) -> Option<u64> {
    let later = |served: Served| Served {
        task: served.task,
        number: served.number + hyperperiod / tasks[served.task].period,
    };
    (from..slots.len() as u64 - hyperperiod)
        .find(|&t| slots[t as usize].map(later) != slots[(t + hyperperiod) as usize])
}

#[cfg(test)]
mod tests {
    use super::*;
    use crate::paper::tasks_of;

    #[test]
    fn a_preemption_for_an_equal_instant_due_is_found() {
        let tasks = tasks_of(&[1, 1, 3, 4, 0, 2, 4, 4]);
        let job = |task| Some(Served { task, number: 0 });
        let slots = [job(1), job(0), job(1)];
        assert_eq!(pointless(&slots, &tasks), [1]);
        let sooner = tasks_of(&[1, 1, 2, 4, 0, 2, 4, 4]);
        assert_eq!(pointless(&slots, &sooner), []);
    }

    #[test]
    fn a_finished_job_is_not_preempted_and_owes_nothing() {
        let tasks = tasks_of(&[0, 2, 4, 4, 1, 1, 2, 4]);
        let job = |task, number| Some(Served { task, number });
        let slots = [job(0, 0), job(1, 0), job(0, 0), None, job(0, 1)];
        assert_eq!(preemptions(&slots, &tasks), [1]);
        assert_eq!(owed(&slots, &tasks, 2), [1, 0]);
        assert_eq!(owed(&slots, &tasks, 4), [0, 0]);
    }
}
