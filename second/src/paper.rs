//! The rules of the paper: limits, policies, refusals in their order, answers.

use crate::card::Card;

pub const MOST_TASKS: usize = 16;
pub const MOST_PERIOD: u64 = 16_384;
pub const MOST_OFFSET: u64 = 16_384;
pub const MOST_HYPERPERIOD: u64 = 16_384;
pub const IDLE: u8 = 255;
pub const ROW_WORDS: usize = 8;
pub const TASK_WORDS: usize = 4;
/// How many policies there are; numbers from this on name none.
pub const POLICY_COUNT: u64 = 4;

#[derive(Clone, Copy, PartialEq, Debug)]
pub struct Task {
    pub offset: u64,
    pub run: u64,
    pub deadline: u64,
    pub period: u64,
}

impl Task {
    pub fn words(&self) -> [u64; TASK_WORDS] {
        [self.offset, self.run, self.deadline, self.period]
    }
}

/// Reads the words O C D T of each task; words left over are not a task.
pub fn tasks_of(list: &[u64]) -> Vec<Task> {
    list.chunks_exact(TASK_WORDS)
        .map(|w| Task {
            offset: w[0],
            run: w[1],
            deadline: w[2],
            period: w[3],
        })
        .collect()
}

#[derive(Clone, Copy, PartialEq, Debug)]
pub enum Policy {
    ListOrder,
    RateMonotonic,
    DeadlineMonotonic,
    EarliestDeadlineFirst,
}

impl Policy {
    pub fn of(number: u64) -> Option<Policy> {
        match number {
            0 => Some(Policy::ListOrder),
            1 => Some(Policy::RateMonotonic),
            2 => Some(Policy::DeadlineMonotonic),
            3 => Some(Policy::EarliestDeadlineFirst),
            _ => None,
        }
    }
}

#[derive(Clone, Copy, PartialEq, Debug)]
pub enum Answer {
    Feasible {
        largest_offset: u64,
        hyperperiod: u64,
        load: u64,
        idle: [u64; 2],
        preemptions: [u64; 2],
    },
    Missed {
        task: u64,
        instant: u64,
    },
    Overloaded {
        load: u64,
        hyperperiod: u64,
    },
    Refused {
        number: u64,
        task: u64,
    },
    /// The call itself is wrong, so nothing is answered.
    NotAsked,
}

/// The least number up to `most` that every period divides; tried out, not computed.
pub fn hyperperiod_within(periods: &[u64], most: u64) -> Option<u64> {
    let longest = *periods.iter().max()?;
    (1..=most / longest)
        .map(|times| times * longest)
        .find(|h| periods.iter().all(|period| h % period == 0))
}

pub fn hyperperiod(tasks: &[Task]) -> Option<u64> {
    let periods: Vec<u64> = tasks.iter().map(|task| task.period).collect();
    hyperperiod_within(&periods, MOST_HYPERPERIOD)
}

/// M of the paper.
pub fn largest_offset(tasks: &[Task]) -> u64 {
    tasks.iter().map(|task| task.offset).max().unwrap_or(0)
}

/// L of the paper, for tasks inside their limits.
pub fn load(tasks: &[Task], hyperperiod: u64) -> u64 {
    tasks
        .iter()
        .map(|task| task.run * (hyperperiod / task.period))
        .sum()
}

/// Refusals 2, 9, 3, 4 and 5 that apply to one task; only comparisons, so nothing can wrap.
fn task_refusals(card: Card, task: &Task) -> Vec<u64> {
    let mut numbers = Vec::new();
    if task.period == 0 || task.period > MOST_PERIOD {
        numbers.push(2);
    }
    if !card.times(task.period) {
        numbers.push(9);
    }
    if task.run == 0 || task.run > task.deadline {
        numbers.push(3);
    }
    if task.deadline > task.period {
        numbers.push(4);
    }
    if task.offset > MOST_OFFSET {
        numbers.push(5);
    }
    numbers
}

/// A refusal's number and its task.
pub type Refusal = (u64, u64);

/// Every refusal that applies, in the paper's order; the first is given.
pub fn refusals(card: Card, tasks: &[Task], startup_len: usize, cycle_len: usize) -> Vec<Refusal> {
    let mut found = Vec::new();
    if tasks.is_empty() || tasks.len() > MOST_TASKS {
        found.push((1, 0));
    }
    for (i, task) in tasks.iter().enumerate() {
        let numbers = task_refusals(card, task);
        found.extend(numbers.iter().map(|&number| (number, i as u64)));
    }
    // H, M + H and the buffers mean something only for a list inside its limits.
    if found.is_empty() {
        match needed(tasks) {
            None => found.push((6, 0)),
            Some((startup, cycle)) => {
                if startup_len < startup {
                    found.push((7, 0));
                }
                if cycle_len < cycle {
                    found.push((8, 0));
                }
            }
        }
    }
    found
}

/// The buffer lengths M + H and H, unless H is above its limit.
pub fn needed(tasks: &[Task]) -> Option<(usize, usize)> {
    let h = hyperperiod(tasks)?;
    Some(((largest_offset(tasks) + h) as usize, h as usize))
}

#[cfg(test)]
mod tests {
    use super::*;
    use crate::card::CARDS;

    const ROOM: usize = usize::MAX;

    #[test]
    fn a_task_is_refused_2_then_9_then_3_4_and_5() {
        let all = tasks_of(&[16_385, 3, 2, 0, 16_385, 8, 8, 7]);
        let wide = [(2, 0), (3, 0), (4, 0), (5, 0), (4, 1), (5, 1)];
        assert_eq!(refusals(Card::Wide, &all, ROOM, ROOM), wide);
        let small = [
            (2, 0),
            (9, 0),
            (3, 0),
            (4, 0),
            (5, 0),
            (9, 1),
            (4, 1),
            (5, 1),
        ];
        assert_eq!(refusals(Card::Small, &all, ROOM, ROOM), small);
    }

    #[test]
    fn a_short_buffer_is_refused_7_and_8_on_either_card() {
        let list_b = tasks_of(&[0, 2, 4, 4, 1, 1, 2, 4]);
        for card in CARDS {
            assert_eq!(refusals(card, &list_b, 5, 4), []);
            assert_eq!(refusals(card, &list_b, 4, 3), [(7, 0), (8, 0)]);
        }
    }
}
