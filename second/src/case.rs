//! One call: the numbers of a card and a policy, the words of a list, and the lengths of the buffers.

use crate::card::Card;
use crate::paper::{self, Task, ROW_WORDS};
use crate::random::Random;

#[derive(Clone)]
pub struct Case {
    pub card: u64,
    pub policy: u64,
    pub list: Vec<u64>,
    pub startup_len: usize,
    pub cycle_len: usize,
    pub row_len: usize,
}

impl Case {
    /// A call with buffers of exactly the needed lengths, or empty where there are none.
    pub fn exact(card: u64, policy: u64, list: Vec<u64>) -> Case {
        let (startup_len, cycle_len) = needed(&list).unwrap_or((0, 0));
        Case {
            card,
            policy,
            list,
            startup_len,
            cycle_len,
            row_len: ROW_WORDS,
        }
    }

    /// A call whose buffers are exact or longer; any length where nothing is needed.
    pub fn fitting(random: &mut Random, card: u64, policy: u64, list: Vec<u64>) -> Case {
        let mut case = Case::exact(card, policy, list);
        case.startup_len += spare(random);
        case.cycle_len += spare(random);
        if random.once_in(4) {
            case.row_len += random.between(1, 5) as usize;
        }
        case
    }
}

pub fn words_of(tasks: &[Task]) -> Vec<u64> {
    tasks.iter().flat_map(Task::words).collect()
}

/// M + H and H of a list inside its limits, whatever its card's timer has: a list that is refused 9 has room too.
pub fn needed(list: &[u64]) -> Option<(usize, usize)> {
    let tasks = paper::tasks_of(list);
    if paper::refusals(Card::Wide, &tasks, usize::MAX, usize::MAX).is_empty() {
        paper::needed(&tasks)
    } else {
        None
    }
}

fn spare(random: &mut Random) -> usize {
    match random.below(8) {
        0 => 1,
        1 | 2 => random.between(2, 40) as usize,
        _ => 0,
    }
}
