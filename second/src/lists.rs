//! Random lists inside their limits: periods, then run times, deadlines and offsets.

use crate::card::{Card, LONGEST_SMALL_PERIOD, SMALL_PERIODS};
use crate::paper::{self, Task, MOST_HYPERPERIOD, MOST_OFFSET, MOST_TASKS};
use crate::random::Random;

/// Numbers with many divisors, which give periods that fit together.
const RICH: [u64; 22] = [
    16, 24, 30, 36, 48, 60, 64, 120, 210, 240, 360, 504, 720, 1_260, 2_520, 4_096, 5_040, 9_240,
    10_080, 15_120, 16_380, 16_384,
];

/// Sets of periods whose hyperperiod is near its limit.
const LONG: [&[u64]; 9] = [
    &[127, 129],
    &[128, 16_384],
    &[16_384],
    &[16_383],
    &[8_192, 16_384],
    &[128, 127],
    &[3, 5_461],
    &[5, 29, 112],
    &[2, 64, 8_192],
];

/// A list that no refusal but 7 and 8 applies to on this card.
pub fn valid(random: &mut Random, card: Card) -> Vec<Task> {
    if random.once_in(20) {
        return late(random, card);
    }
    let count = count(random);
    let mut periods = match card {
        Card::Wide => periods(random, count),
        Card::Small => small_periods(random, count),
    };
    // Sorted lists let list order meet more deadlines.
    if random.once_in(3) {
        periods.sort_unstable();
    }
    let hyperperiod = paper::hyperperiod_within(&periods, MOST_HYPERPERIOD)
        .expect("periods are made for a small H");
    let mut tasks: Vec<Task> = periods
        .iter()
        .map(|&period| Task {
            offset: 0,
            run: 1,
            deadline: period,
            period,
        })
        .collect();
    set_runs(random, &mut tasks, hyperperiod);
    set_deadlines(random, &mut tasks);
    set_offsets(random, &mut tasks, hyperperiod);
    tasks
}

/// A long and a short task; the short one wakes last, so a first miss is often late.
fn late(random: &mut Random, card: Card) -> Vec<Task> {
    let (period, times) = loop {
        let (period, times) = (random.between(2, 6), random.between(2, 8));
        if card.times(period) && card.times(period * times) {
            break (period, times);
        }
    };
    let hyperperiod = period * times;
    let run = random.between(1, period - 1);
    let short = Task {
        offset: random.between(0, 2 * hyperperiod),
        run,
        deadline: random.between(run, period.min(run + 1)),
        period,
    };
    let run = random.between(1, hyperperiod - times * run);
    let long = Task {
        offset: random.between(0, short.offset),
        run,
        deadline: random.between(run, hyperperiod),
        period: hyperperiod,
    };
    if random.once_in(2) {
        vec![short, long]
    } else {
        vec![long, short]
    }
}

fn count(random: &mut Random) -> usize {
    let most = MOST_TASKS as u64;
    let count = match random.below(20) {
        0 | 1 => 1,
        2..=11 => random.between(2, 4),
        12..=15 => random.between(5, 8),
        16..=17 => random.between(9, most),
        _ => most,
    };
    count as usize
}

fn periods(random: &mut Random, count: usize) -> Vec<u64> {
    if random.once_in(100) {
        let set = random.pick(&LONG);
        return (0..count).map(|i| set[i % set.len()]).collect();
    }
    let least = least(random, count);
    let most = match random.below(200) {
        0..=119 => 64,
        120..=169 => 720,
        170..=187 => 4_096,
        _ => MOST_HYPERPERIOD,
    };
    match random.below(6) {
        0 => harmonic(random, count, least, most),
        1 => divisors(random, count, least, most),
        2 => vec![random.between(least, most); count],
        3 => neighbours(random, count, least, most),
        _ => loose(random, count, least, most),
    }
}

/// Periods of the small card's timer that go into one of them, so that H is often below 240.
fn small_periods(random: &mut Random, count: usize) -> Vec<u64> {
    let least = least(random, count);
    let enough = SMALL_PERIODS.into_iter().filter(|&period| period >= least);
    let longest = if random.once_in(3) {
        LONGEST_SMALL_PERIOD
    } else {
        random.pick(&enough.clone().collect::<Vec<_>>())
    };
    let fitting: Vec<u64> = enough.filter(|period| longest % period == 0).collect();
    (0..count).map(|_| random.pick(&fitting)).collect()
}

/// With periods of at least `count`, one slot for each job is never too much.
fn least(random: &mut Random, count: usize) -> u64 {
    random.pick(&[1, count.div_ceil(2), count, count]) as u64
}

/// Each period is a base doubled some times.
fn harmonic(random: &mut Random, count: usize, least: u64, most: u64) -> Vec<u64> {
    let base = random.between(least, least + 7);
    let doublings = (most / base).ilog2() as u64;
    (0..count)
        .map(|_| base << random.below(doublings + 1))
        .collect()
}

fn divisors(random: &mut Random, count: usize, least: u64, most: u64) -> Vec<u64> {
    let rich: Vec<u64> = RICH.into_iter().filter(|&rich| rich <= most).collect();
    let number = random.pick(&rich);
    let divisors: Vec<u64> = (least..=number)
        .filter(|&d| number.is_multiple_of(d))
        .collect();
    (0..count).map(|_| random.pick(&divisors)).collect()
}

/// Two neighbouring numbers have no common divisor, so H is their product.
fn neighbours(random: &mut Random, count: usize, least: u64, most: u64) -> Vec<u64> {
    let lower = random.between(least.min(most.isqrt() - 1), most.isqrt() - 1);
    (0..count).map(|_| lower + random.below(2)).collect()
}

/// Any periods, as long as H stays below `most`.
fn loose(random: &mut Random, count: usize, least: u64, most: u64) -> Vec<u64> {
    let mut periods = vec![random.between(least, least + 12)];
    while periods.len() < count {
        periods.push(random.between(least, least + 12));
        if paper::hyperperiod_within(&periods, most).is_none() {
            periods.pop();
            periods.push(random.pick(&periods));
        }
    }
    periods
}

/// Raises run times until the load is near a target below, at or above H.
fn set_runs(random: &mut Random, tasks: &mut [Task], hyperperiod: u64) {
    let target = match random.below(10) {
        0..=2 => random.between(1, hyperperiod),
        3..=5 => hyperperiod - random.below(1 + hyperperiod / 8),
        6..=8 => hyperperiod,
        _ => hyperperiod + 1 + random.pick(&[0, 0, hyperperiod]),
    };
    let first = random.index(tasks.len());
    let count = tasks.len();
    for turn in 0..3 * count {
        let at = (first + turn) % count;
        let room = target.saturating_sub(paper::load(tasks, hyperperiod));
        let task = &mut tasks[at];
        let most = (room / (hyperperiod / task.period)).min(task.period - task.run);
        // The last round gives away all that is left.
        let full = turn >= 2 * count;
        task.run += if full { most } else { random.below(most + 1) };
    }
}

fn set_deadlines(random: &mut Random, tasks: &mut [Task]) {
    let style = random.below(10);
    for task in tasks {
        task.deadline = match style {
            0..=3 => task.period,
            4 => task.run,
            5 | 6 => random.between(task.run, task.period),
            // A little less than the period leaves tight lists feasible more often.
            7 => task.period - random.below(1 + (task.period - task.run).min(3)),
            _ => {
                let any = random.between(task.run, task.period);
                random.pick(&[task.run, task.period, task.period, any])
            }
        };
    }
}

fn set_offsets(random: &mut Random, tasks: &mut [Task], hyperperiod: u64) {
    let style = random.below(60);
    let one = random.index(tasks.len());
    let latest = tasks.iter().map(|task| task.deadline).max().unwrap_or(0);
    for (i, task) in tasks.iter_mut().enumerate() {
        let offset = match style {
            0..=11 => 0,
            12..=23 => random.below(task.period),
            24..=29 => random.between(0, hyperperiod),
            // Every first job is due at the same instant, so releases that differ decide often.
            30..=44 => latest - task.deadline,
            45..=51 => random.between(0, 3 * hyperperiod),
            52..=58 if i == one => hyperperiod + random.between(1, hyperperiod),
            52..=58 => random.below(task.period),
            _ if i == one => random.between(MOST_OFFSET - 3, MOST_OFFSET),
            _ => random.between(0, MOST_OFFSET),
        };
        task.offset = offset.min(MOST_OFFSET);
    }
}

#[cfg(test)]
mod tests {
    use super::*;
    use crate::card::CARDS;

    #[test]
    fn valid_lists_are_not_refused() {
        let mut random = Random::new(1);
        for _ in 0..2000 {
            for card in CARDS {
                let tasks = valid(&mut random, card);
                assert_eq!(paper::refusals(card, &tasks, usize::MAX, usize::MAX), []);
            }
        }
    }
}
