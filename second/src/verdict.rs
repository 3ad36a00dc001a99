//! The whole answer of the paper for one case, read off the walk.

use crate::card::Card;
use crate::case::Case;
use crate::paper::{self, Answer, Policy, Refusal, Task, ROW_WORDS, TASK_WORDS};
use crate::readoff;
use crate::walk::{self, Miss, Walk};

/// An answer, the entries it writes from the front of each buffer, and what was seen.
pub struct Verdict {
    pub answer: Answer,
    pub startup: Vec<u8>,
    pub cycle: Vec<u8>,
    /// Every refusal that applies, to see that their order was tried.
    pub refusals: Vec<Refusal>,
    /// Under EDF an earlier release went before a lower task.
    pub release_decided: bool,
    /// A preemption at instant M + 2H.
    pub last_preemption: bool,
    /// Claims of the paper that this walk contradicts; any is a failure.
    pub broken: Vec<String>,
}

impl Verdict {
    fn plain(answer: Answer) -> Verdict {
        Verdict {
            answer,
            startup: Vec::new(),
            cycle: Vec::new(),
            refusals: Vec::new(),
            release_decided: false,
            last_preemption: false,
            broken: Vec::new(),
        }
    }
}

pub fn judge(case: &Case) -> Verdict {
    let words_left = case.list.len() % TASK_WORDS;
    let (Some(card), Some(policy)) = (Card::of(case.card), Policy::of(case.policy)) else {
        return Verdict::plain(Answer::NotAsked);
    };
    if words_left != 0 || case.row_len < ROW_WORDS {
        return Verdict::plain(Answer::NotAsked);
    }
    let tasks = paper::tasks_of(&case.list);
    let refusals = paper::refusals(card, &tasks, case.startup_len, case.cycle_len);
    if let Some(&(number, task)) = refusals.first() {
        return Verdict {
            refusals,
            ..Verdict::plain(Answer::Refused { number, task })
        };
    }
    let hyperperiod = paper::hyperperiod(&tasks).expect("a larger H was refused");
    let load = paper::load(&tasks, hyperperiod);
    if load > hyperperiod {
        return Verdict::plain(Answer::Overloaded { load, hyperperiod });
    }
    judge_walk(policy, &tasks, hyperperiod)
}

/// Walks far beyond M + 2H, so that the paper's own bound is tried as well.
fn judge_walk(policy: Policy, tasks: &[Task], hyperperiod: u64) -> Verdict {
    let repeats = paper::largest_offset(tasks) + hyperperiod;
    let walk = walk::walk(policy, tasks, repeats + 3 * hyperperiod);
    let mut verdict = match walk.miss {
        Some(miss) => missed(&walk, miss, repeats, hyperperiod),
        None => feasible(&walk, tasks, hyperperiod),
    };
    if policy == Policy::EarliestDeadlineFirst {
        for t in readoff::pointless(&walk.slots, tasks) {
            let why = format!("the preemption at {t} is for a job that is not due earlier");
            verdict.broken.push(why);
        }
    }
    verdict
}

fn missed(walk: &Walk, miss: Miss, repeats: u64, hyperperiod: u64) -> Verdict {
    let end = repeats + hyperperiod;
    let mut broken = Vec::new();
    if miss.instant > end {
        broken.push(format!("first miss at {}, after M + 2H", miss.instant));
    }
    let startup_end = miss.instant.min(repeats) as usize;
    let cycle_end = miss.instant.min(end) as usize;
    let answer = Answer::Missed {
        task: miss.task as u64,
        instant: miss.instant,
    };
    Verdict {
        startup: readoff::table(&walk.slots[..startup_end]),
        cycle: readoff::table(&walk.slots[startup_end..cycle_end]),
        release_decided: walk.release_decided,
        broken,
        ..Verdict::plain(answer)
    }
}

fn feasible(walk: &Walk, tasks: &[Task], hyperperiod: u64) -> Verdict {
    let largest_offset = paper::largest_offset(tasks);
    let repeats = largest_offset + hyperperiod;
    let end = repeats + hyperperiod;
    let startup = readoff::table(&walk.slots[..repeats as usize]);
    let cycle = readoff::table(&walk.slots[repeats as usize..end as usize]);
    // Slot M + 2H is needed as well: it decides the preemption at that instant.
    let instants = readoff::preemptions(&walk.slots[..=end as usize], tasks);
    let in_startup = instants.iter().filter(|&&t| t <= repeats).count() as u64;
    let answer = Answer::Feasible {
        largest_offset,
        hyperperiod,
        load: paper::load(tasks, hyperperiod),
        idle: [readoff::idle(&startup), readoff::idle(&cycle)],
        preemptions: [in_startup, instants.len() as u64 - in_startup],
    };
    Verdict {
        broken: broken_claims(walk, tasks, hyperperiod, readoff::idle(&cycle)),
        startup,
        cycle,
        release_decided: walk.release_decided,
        last_preemption: instants.last() == Some(&end),
        ..Verdict::plain(answer)
    }
}

/// What the paper claims of a list without a miss, tried on this walk.
fn broken_claims(walk: &Walk, tasks: &[Task], hyperperiod: u64, idle: u64) -> Vec<String> {
    let repeats = paper::largest_offset(tasks) + hyperperiod;
    let mut broken = Vec::new();
    if let Some(slot) = readoff::not_repeated(&walk.slots, tasks, repeats, hyperperiod) {
        broken.push(format!("slot {slot} is not repeated after H slots"));
    }
    let owed = |instant| readoff::owed(&walk.slots, tasks, instant);
    if owed(repeats) != owed(repeats + hyperperiod) {
        broken.push("slots owed at M + H and M + 2H are not equal".to_string());
    }
    if idle + paper::load(tasks, hyperperiod) != hyperperiod {
        broken.push(format!("cycle idle {idle} is not H - L"));
    }
    broken
}
