//! The endless schedule, walked slot by slot with every job as a thing of its own.

use crate::paper::{Policy, Task};

struct Job {
    task: usize,
    number: u64,
    release: u64,
    due: u64,
    needed: u64,
}

impl Job {
    fn ready(&self, instant: u64) -> bool {
        self.release <= instant && self.needed > 0
    }
}

/// The job that had a slot: job `number` of `task`.
#[derive(Clone, Copy, PartialEq, Debug)]
pub struct Served {
    pub task: usize,
    pub number: u64,
}

#[derive(Clone, Copy, PartialEq, Debug)]
pub struct Miss {
    pub task: usize,
    pub instant: u64,
}

pub struct Walk {
    pub slots: Vec<Option<Served>>,
    pub miss: Option<Miss>,
    /// Under EDF a job went before one of a lower task that is due at the same instant, as it was released before it.
    pub release_decided: bool,
}

/// Walks instants 0 to `last`; stops early only at the first miss.
pub fn walk(policy: Policy, tasks: &[Task], last: u64) -> Walk {
    let mut jobs: Vec<Job> = Vec::new();
    let mut slots = Vec::new();
    let mut release_decided = false;
    for instant in 0..=last {
        if let Some(task) = missing(&jobs, instant) {
            return Walk {
                slots,
                miss: Some(Miss { task, instant }),
                release_decided,
            };
        }
        jobs.retain(|job| job.due > instant);
        release(&mut jobs, tasks, instant);
        let chosen = choose(&jobs, policy, tasks, instant);
        if policy == Policy::EarliestDeadlineFirst {
            release_decided |= chosen.is_some_and(|at| passes_lower_task(&jobs, at, instant));
        }
        slots.push(chosen.map(|at| serve(&mut jobs[at])));
    }
    Walk {
        slots,
        miss: None,
        release_decided,
    }
}

/// The least task with a job due now that has not had all its slots.
fn missing(jobs: &[Job], instant: u64) -> Option<usize> {
    jobs.iter()
        .filter(|job| job.due == instant && job.needed > 0)
        .map(|job| job.task)
        .min()
}

fn release(jobs: &mut Vec<Job>, tasks: &[Task], instant: u64) {
    for (number_of_task, task) in tasks.iter().enumerate() {
        if instant >= task.offset && (instant - task.offset).is_multiple_of(task.period) {
            jobs.push(Job {
                task: number_of_task,
                number: (instant - task.offset) / task.period,
                release: instant,
                due: instant + task.deadline,
                needed: task.run,
            });
        }
    }
}

/// The ready job with the smallest key, if there is one.
fn choose(jobs: &[Job], policy: Policy, tasks: &[Task], instant: u64) -> Option<usize> {
    (0..jobs.len())
        .filter(|&at| jobs[at].ready(instant))
        .min_by_key(|&at| key(policy, &tasks[jobs[at].task], &jobs[at]))
}

fn serve(job: &mut Job) -> Served {
    job.needed -= 1;
    Served {
        task: job.task,
        number: job.number,
    }
}

/// The policy's numbers first, the task number where they are equal.
fn key(policy: Policy, task: &Task, job: &Job) -> ([u64; 2], usize) {
    let numbers = match policy {
        Policy::ListOrder => [job.task as u64, 0],
        Policy::RateMonotonic => [task.period, 0],
        Policy::DeadlineMonotonic => [task.deadline, 0],
        Policy::EarliestDeadlineFirst => [job.due, job.release],
    };
    (numbers, job.task)
}

/// A job of a lower task waits as well that is due at the same instant and was released later.
fn passes_lower_task(jobs: &[Job], chosen: usize, instant: u64) -> bool {
    let chosen = &jobs[chosen];
    jobs.iter().any(|job| {
        job.ready(instant)
            && job.due == chosen.due
            && job.release > chosen.release
            && job.task < chosen.task
    })
}

#[cfg(test)]
mod tests {
    use super::*;
    use crate::paper::tasks_of;

    #[test]
    fn a_miss_is_noted_before_the_release_at_the_same_instant() {
        let tasks = tasks_of(&[0, 1, 2, 2, 0, 2, 2, 2]);
        let walk = walk(Policy::ListOrder, &tasks, 9);
        assert_eq!(
            walk.miss,
            Some(Miss {
                task: 1,
                instant: 2
            })
        );
        assert_eq!(walk.slots.len(), 2);
    }

    /// Who has slots 0 to 3, and whether a release decided.
    fn first_slots(policy: Policy, tasks: &[u64]) -> (Vec<Option<usize>>, bool) {
        let walk = walk(policy, &tasks_of(tasks), 3);
        let served = walk.slots.iter().map(|slot| slot.map(|job| job.task));
        (served.collect(), walk.release_decided)
    }

    #[test]
    fn equal_instants_due_go_to_the_earlier_release() {
        let (slots, decided) =
            first_slots(Policy::EarliestDeadlineFirst, &[1, 1, 2, 4, 0, 2, 3, 4]);
        assert_eq!(slots, [Some(1), Some(1), Some(0), None]);
        assert!(decided);
    }

    #[test]
    fn equal_instants_due_and_releases_go_by_task_number() {
        let (slots, decided) =
            first_slots(Policy::EarliestDeadlineFirst, &[0, 1, 3, 4, 0, 2, 3, 4]);
        assert_eq!(slots, [Some(0), Some(1), Some(1), None]);
        assert!(!decided);
    }

    #[test]
    fn other_equal_keys_go_by_task_number_whatever_the_release() {
        for policy in [Policy::RateMonotonic, Policy::DeadlineMonotonic] {
            let (slots, decided) = first_slots(policy, &[1, 1, 4, 4, 0, 2, 4, 4]);
            assert_eq!(slots, [Some(1), Some(0), Some(1), None]);
            assert!(!decided);
        }
    }
}
