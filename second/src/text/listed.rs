//! Texts of random lists, most of them small.

use super::reader::{MOST_NUMBER, POLICIES};
use super::writer;
use crate::card::{Card, CARDS};
use crate::damage;
use crate::lists;
use crate::paper::{self, Task};
use crate::random::Random;

/// Slots that are walked quickly.
const FEW_SLOTS: usize = 256;

/// More tasks than any text of 4,096 bytes has.
const MANY_TASKS: usize = 400;

/// A text that is read, of a list that no refusal applies to.
pub fn valid(random: &mut Random) -> Vec<u8> {
    let card = random.pick(&CARDS);
    let tasks = valid_tasks(random, card);
    writer::text(card, random.pick(&POLICIES), &tasks)
}

/// A list inside its limits, now and then one with long tables.
pub fn valid_tasks(random: &mut Random, card: Card) -> Vec<Task> {
    if random.once_in(100) {
        return lists::valid(random, card);
    }
    loop {
        let tasks = lists::valid(random, card);
        if slots(&tasks) <= FEW_SLOTS {
            return tasks;
        }
    }
}

/// A text of a list for a small card, with a period or two that its timer mostly does not have.
pub fn untimed(random: &mut Random) -> Vec<u8> {
    let mut tasks = valid_tasks(random, Card::Small);
    for _ in 0..random.between(1, 2) {
        damage::spoil_timer(random, &mut tasks);
    }
    writer::text(Card::Small, random.pick(&POLICIES), &tasks)
}

/// M + H, for a list inside its limits.
fn slots(tasks: &[Task]) -> usize {
    paper::needed(tasks).map_or(0, |(startup, _)| startup)
}

/// A text of any list: damaged ones too, whose numbers may be too large to be read.
pub fn any(random: &mut Random) -> Vec<u8> {
    let case = damage::any_case(random);
    // A text can't name any other card.
    let card = Card::of(case.card).unwrap_or(Card::Small);
    let mut list = case.list;
    // Cut to what a text may say, a number is still above every limit of a task.
    if random.once_in(2) {
        list.iter_mut()
            .for_each(|word| *word = (*word).min(MOST_NUMBER));
    }
    let mut tasks = paper::tasks_of(&list);
    tasks.truncate(MANY_TASKS);
    let walked = paper::refusals(card, &tasks, usize::MAX, usize::MAX).is_empty();
    if walked && slots(&tasks) > FEW_SLOTS {
        tasks = valid_tasks(random, card);
    }
    writer::text(card, random.pick(&POLICIES), &tasks)
}

/// A list with the longest tables there are: M and H are 16,384.
pub fn longest(random: &mut Random) -> Vec<u8> {
    let count = random.between(1, 16);
    let tasks: Vec<Task> = (0..count)
        .map(|i| Task {
            offset: if i == 0 { 16_384 } else { random.below(100) },
            run: random.between(1, 16_384 / count),
            deadline: 16_384,
            period: 16_384,
        })
        .collect();
    writer::text(Card::Wide, random.pick(&POLICIES), &tasks)
}
