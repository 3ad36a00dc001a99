//! How often each answer of the writer came in a run.

use super::pairs::Pair;
use crate::card::Card;
use crate::counts::Counts;
use crate::paper::{Policy, MOST_TASKS, TASK_WORDS};
use crate::text::reader::MOST_NUMBER;

/// What comes of a pair; a run without any of these fails.
const LINES: [&str; 21] = [
    "written, no task",
    "written, 16 tasks",
    "written, a number of 999,999",
    "written, exact room",
    "written, room to spare",
    "written, small card",
    "written, small card, no task",
    "written, small card, 16 tasks",
    "refused 13, too many tasks alone",
    "refused 13, a number alone",
    "refused 13, a number of 1,000,000 alone",
    "refused 13, room alone",
    "refused 13, room one short alone",
    "refused 13, room one short alone, small card",
    "refused 13, several reasons",
    "code 4, card alone",
    "code 4, policy alone",
    "code 4, words alone",
    "code 4, card and another",
    "code 4, policy and words",
    "code 4, and a reason for 13",
];

pub struct Tally {
    pub counts: Counts,
}

impl Tally {
    pub fn of_pairs() -> Tally {
        Tally {
            counts: Counts::of(LINES.map(|line| (line.to_string(), true))),
        }
    }

    /// One call of the writer, with the length of the text as if nothing were refused.
    pub fn add(&mut self, pair: &Pair, length: usize, room: usize) {
        let card = Card::of(pair.card).is_none();
        let policy = Policy::of(pair.policy).is_none();
        let words = !pair.list.len().is_multiple_of(TASK_WORDS);
        let many = pair.list.len() / TASK_WORDS > MOST_TASKS;
        let large: Vec<u64> = pair
            .list
            .iter()
            .copied()
            .filter(|&w| w > MOST_NUMBER)
            .collect();
        let short = room < length;
        let reasons = [many, !large.is_empty(), short];
        match [card, policy, words] {
            [false, false, false] => self.add_refusal(pair, reasons, &large, length, room),
            [true, false, false] => self.counts.note("code 4, card alone"),
            [false, true, false] => self.counts.note("code 4, policy alone"),
            [false, false, true] => self.counts.note("code 4, words alone"),
            [true, ..] => self.counts.note("code 4, card and another"),
            [false, true, true] => self.counts.note("code 4, policy and words"),
        }
        let both = (card || policy || words) && reasons != [false; 3];
        self.counts.note_if(both, "code 4, and a reason for 13");
    }

    fn add_refusal(
        &mut self,
        pair: &Pair,
        why: [bool; 3],
        large: &[u64],
        length: usize,
        room: usize,
    ) {
        match why {
            [false, false, false] => self.add_written(pair, length, room),
            [true, false, false] => self.counts.note("refused 13, too many tasks alone"),
            [false, true, false] => {
                self.counts.note("refused 13, a number alone");
                let by_one = large == [MOST_NUMBER + 1];
                self.counts
                    .note_if(by_one, "refused 13, a number of 1,000,000 alone");
            }
            [false, false, true] => {
                self.counts.note("refused 13, room alone");
                let one_short = room + 1 == length;
                self.counts
                    .note_if(one_short, "refused 13, room one short alone");
                self.counts.note_if(
                    one_short && is_small(pair),
                    "refused 13, room one short alone, small card",
                );
            }
            _ => self.counts.note("refused 13, several reasons"),
        }
    }

    fn add_written(&mut self, pair: &Pair, length: usize, room: usize) {
        let tasks = pair.list.len() / TASK_WORDS;
        let (none, full) = (tasks == 0, tasks == MOST_TASKS);
        self.counts.note_if(none, "written, no task");
        self.counts.note_if(full, "written, 16 tasks");
        let largest = pair.list.contains(&MOST_NUMBER);
        self.counts.note_if(largest, "written, a number of 999,999");
        self.counts.note_if(room == length, "written, exact room");
        self.counts.note_if(room > length, "written, room to spare");
        if is_small(pair) {
            self.counts.note("written, small card");
            self.counts.note_if(none, "written, small card, no task");
            self.counts.note_if(full, "written, small card, 16 tasks");
        }
    }
}

fn is_small(pair: &Pair) -> bool {
    pair.card == Card::Small.number()
}
