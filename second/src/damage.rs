//! Cases of every kind: valid lists, damaged ones, wild words and calls that are wrong.

use crate::card::{Card, CARDS, LONGEST_SMALL_PERIOD as LONGEST, SMALL_PERIODS};
use crate::case::{words_of, Case};
use crate::lists;
use crate::paper::{
    Task, MOST_OFFSET, MOST_PERIOD, MOST_TASKS, POLICY_COUNT, ROW_WORDS, TASK_WORDS,
};
use crate::random::Random;

/// Words at and around the limits, and words that would wrap.
const BORDERS: [u64; 20] = [
    0,
    1,
    2,
    3,
    127,
    128,
    129,
    16_383,
    16_384,
    16_385,
    16_386,
    32_768,
    65_536,
    u32::MAX as u64,
    u32::MAX as u64 + 1,
    i64::MAX as u64,
    i64::MAX as u64 + 1,
    u64::MAX / 16_384,
    u64::MAX - 1,
    u64::MAX,
];

/// Sets of periods whose hyperperiod is above its limit; the first is above by one.
/// The last three give 16,384 when they are cut to 16, 32 and 64 bits.
const TOO_LONG: [&[u64]; 7] = [
    &[5, 29, 113],
    &[128, 129],
    &[16_383, 16_384],
    &[16_381, 16_369, 16_363, 16_361, 16_349, 16_339],
    &[16_384, 5],
    &[16_384, 5, 13, 37, 109],
    &[16_384, 3_463, 1_601, 1_193, 1_163, 289, 157],
];

pub fn any_case(random: &mut Random) -> Case {
    let card = random.pick(&CARDS);
    let policy = random.below(POLICY_COUNT);
    match random.below(100) {
        0..=61 => fitting(random, card, policy),
        62..=86 => damaged(random, card, policy),
        87..=91 => wild(random, card, policy),
        92..=95 => wrong_count(random, card, policy),
        _ => wrong_call(random, card, policy),
    }
}

/// A valid list, with buffers that fit.
fn fitting(random: &mut Random, card: Card, policy: u64) -> Case {
    let list = words_of(&lists::valid(random, card));
    Case::fitting(random, card.number(), policy, list)
}

/// A valid list with one to three things spoilt; buffers fit the list as it was.
fn damaged(random: &mut Random, card: Card, policy: u64) -> Case {
    let mut tasks = lists::valid(random, card);
    let mut case = Case::fitting(random, card.number(), policy, words_of(&tasks));
    for _ in 0..random.pick(&[1, 1, 1, 2, 2, 3]) {
        match random.below(8) {
            0 | 1 if card == Card::Small => spoil_timer(random, &mut tasks),
            0..=3 => spoil_field(random, &mut tasks),
            4 => spoil_hyperperiod(random, &mut tasks),
            5 => case.startup_len = shorter(random, case.startup_len),
            6 => case.cycle_len = shorter(random, case.cycle_len),
            _ => {
                case.startup_len = shorter(random, case.startup_len);
                case.cycle_len = shorter(random, case.cycle_len);
            }
        }
    }
    case.list = words_of(&tasks);
    case
}

/// A period that the small card's timer does not have, 0 among them, or now and then another that it has; the other fields
/// often stay inside their limits.
pub fn spoil_timer(random: &mut Random, tasks: &mut [Task]) {
    let at = random.index(tasks.len());
    let timed = random.pick(&SMALL_PERIODS);
    tasks[at].period = match random.below(8) {
        0 | 1 => timed + 1,
        2 => timed - 1,
        // Cut to eight bits, it looks right.
        3 => timed + (random.between(1, 63) << 8),
        4 => LONGEST * random.between(2, MOST_PERIOD / LONGEST),
        5 => random.between(LONGEST + 1, MOST_PERIOD),
        _ => random.between(1, LONGEST),
    };
    if !random.once_in(4) {
        fit_into_period(&mut tasks[at]);
    }
}

fn spoil_field(random: &mut Random, tasks: &mut [Task]) {
    let at = random.index(tasks.len());
    let task = &mut tasks[at];
    match random.below(4) {
        0 => task.offset = above(random, task.offset, MOST_OFFSET),
        1 if random.once_in(3) => task.run = 0,
        1 => task.run = above(random, task.run, task.deadline),
        2 if random.once_in(4) => task.deadline = task.run.saturating_sub(1),
        2 => task.deadline = above(random, task.deadline, task.period),
        _ if random.once_in(3) => task.period = 0,
        _ => task.period = above(random, task.period, MOST_PERIOD),
    }
}

/// A word above its limit, often one whose low bits still look right.
fn above(random: &mut Random, word: u64, limit: u64) -> u64 {
    let next = limit.saturating_add(1);
    match random.below(5) {
        0 | 1 => next,
        2 => word.wrapping_add(1 << random.between(15, 63)),
        3 => u64::MAX - random.below(2),
        _ => random.between(next, u64::MAX),
    }
}

/// Periods with an H above its limit; the other fields stay inside theirs.
fn spoil_hyperperiod(random: &mut Random, tasks: &mut Vec<Task>) {
    if random.once_in(3) {
        let at = random.index(tasks.len());
        let least = tasks[at].deadline.clamp(1, MOST_PERIOD);
        tasks[at].period = random.between(least, MOST_PERIOD);
        return;
    }
    let set = random.pick(&TOO_LONG);
    let count = tasks.len().max(set.len());
    tasks.resize(count, tasks[0]);
    for (task, &period) in tasks.iter_mut().zip(set.iter().cycle()) {
        task.period = period;
        fit_into_period(task);
    }
}

fn fit_into_period(task: &mut Task) {
    task.deadline = task.deadline.min(task.period);
    task.run = task.run.min(task.deadline);
}

/// Often one entry less, which the caller's lengths make just too short.
fn shorter(random: &mut Random, len: usize) -> usize {
    match random.below(4) {
        0 => 0,
        1 => random.index(len + 1),
        _ => len.saturating_sub(1),
    }
}

/// Words without any order: all tiny, or all from around the limits.
fn wild(random: &mut Random, card: Card, policy: u64) -> Case {
    let tiny = random.once_in(2);
    let tasks = random.between(1, if tiny { 3 } else { MOST_TASKS as u64 });
    let list = (0..TASK_WORDS as u64 * tasks)
        .map(|_| {
            if tiny {
                random.below(5)
            } else {
                random.pick(&BORDERS)
            }
        })
        .collect();
    let mut case = Case::fitting(random, card.number(), policy, list);
    if random.once_in(4) {
        case.startup_len = shorter(random, case.startup_len);
    }
    if random.once_in(4) {
        case.cycle_len = shorter(random, case.cycle_len);
    }
    case
}

/// No task or too many; some counts look right when cut to 8 or 16 bits.
fn wrong_count(random: &mut Random, card: Card, policy: u64) -> Case {
    let count = match random.below(400) {
        0 => 65_536 + random.index(MOST_TASKS + 1),
        1..=20 => 256 + random.index(MOST_TASKS + 1),
        21..=30 => 1_000,
        31..=130 => 0,
        131..=280 => MOST_TASKS + 1,
        _ => random.between(17, 40) as usize,
    };
    let pattern = words_of(&lists::valid(random, card));
    let list = if random.once_in(3) {
        (0..TASK_WORDS * count)
            .map(|_| random.pick(&BORDERS))
            .collect()
    } else {
        pattern
            .iter()
            .copied()
            .cycle()
            .take(TASK_WORDS * count)
            .collect()
    };
    let mut case = Case::fitting(random, card.number(), policy, list);
    case.startup_len = random.below(80) as usize;
    case.cycle_len = random.below(80) as usize;
    case
}

/// A call that is wrong for one of four reasons, sometimes for two.
fn wrong_call(random: &mut Random, card: Card, policy: u64) -> Case {
    let mut case = match random.below(3) {
        0 => damaged(random, card, policy),
        1 => wrong_count(random, card, policy),
        _ => fitting(random, card, policy),
    };
    for _ in 0..random.pick(&[1, 1, 1, 2]) {
        match random.below(4) {
            0 => case.card = unknown(random, CARDS.len() as u64),
            1 => case.policy = unknown(random, POLICY_COUNT),
            2 => {
                let words = case.list.len() + random.between(1, 3) as usize;
                case.list.resize(words, random.below(4));
            }
            _ => {
                let any = random.index(ROW_WORDS);
                case.row_len = random.pick(&[0, any, ROW_WORDS - 1]);
            }
        }
    }
    case
}

/// A number from `first` on, often one that looks right once it is cut.
pub fn unknown(random: &mut Random, first: u64) -> u64 {
    let any = random.between(first, u64::MAX);
    let cut = random.below(first) + (1 << random.between(8, 63));
    random.pick(&[first, first + 1, 7, 255, cut, cut, u64::MAX, any])
}
