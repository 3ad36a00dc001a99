//! Random cards, policies and lists to write: any words, any count, any card and policy.

use crate::card::{Card, CARDS};
use crate::case::words_of;
use crate::damage::unknown;
use crate::paper::{self, MOST_TASKS, TASK_WORDS};
use crate::random::Random;
use crate::text::reader::{MOST_NUMBER, POLICIES};
use crate::text::{listed, writer};

pub struct Pair {
    pub card: u64,
    pub policy: u64,
    pub list: Vec<u64>,
}

impl Pair {
    /// The text as it would be if nothing were refused; its length is the room that is tried.
    pub fn text(&self) -> Vec<u8> {
        let card = Card::of(self.card).unwrap_or(Card::Wide);
        let name = POLICIES.get(self.policy as usize).unwrap_or(&"");
        writer::text(card, name, &paper::tasks_of(&self.list))
    }
}

/// Words at the border of what can be written, and words that look right once they are cut.
const BORDERS: [u64; 12] = [
    0,
    9,
    10,
    99_999,
    100_000,
    MOST_NUMBER - 1,
    MOST_NUMBER,
    MOST_NUMBER + 1,
    1 << 32,
    (1 << 32) + 5,
    1 << 63,
    u64::MAX,
];

pub fn any(random: &mut Random) -> Pair {
    let card = random.pick(&CARDS);
    let mut list = match random.below(4) {
        0 => words_of(&listed::valid_tasks(random, card)),
        _ => numbers(random),
    };
    let (mut card, mut policy) = (card.number(), random.below(paper::POLICY_COUNT));
    if random.once_in(3) && !list.is_empty() {
        let at = random.index(list.len());
        list[at] = random.pick(&BORDERS);
    }
    if random.once_in(10) {
        card = unknown(random, CARDS.len() as u64);
    }
    if random.once_in(10) {
        policy = unknown(random, paper::POLICY_COUNT);
    }
    if random.once_in(10) {
        let words = list.len() + random.between(1, 3) as usize;
        list.resize(words, random.below(10));
    }
    Pair { card, policy, list }
}

/// Any number of tasks, often as many as a list may have or one more.
fn numbers(random: &mut Random) -> Vec<u64> {
    let most = MOST_TASKS as u64;
    let count = match random.below(8) {
        0 => 0,
        1 | 2 => most,
        3 => most + 1,
        4 => random.between(0, 40),
        5 if random.once_in(20) => 256 + random.between(0, most),
        _ => random.between(1, most),
    };
    let wild = random.once_in(8);
    (0..TASK_WORDS as u64 * count)
        .map(|_| number(random, wild))
        .collect()
}

/// A number of any count of digits; wild ones are rarely small enough.
fn number(random: &mut Random, wild: bool) -> u64 {
    if wild {
        return random.next() >> random.below(64);
    }
    let digits = random.between(1, 6) as u32;
    random.below(10_u64.pow(digits))
}
