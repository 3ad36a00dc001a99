//! Buffers to lend, each inside a larger allocation full of a pattern.

use crate::case::Case;
use crate::random::Random;

/// Room before and behind the lent part, to see bytes written outside of it.
const MOST_MARGIN: u64 = 40;

#[derive(Clone)]
pub struct Lent<W> {
    pub all: Vec<W>,
    pub start: usize,
    pub len: usize,
}

impl<W> Lent<W> {
    pub fn part(&self) -> &[W] {
        &self.all[self.start..self.start + self.len]
    }

    pub fn part_mut(&mut self) -> &mut [W] {
        &mut self.all[self.start..self.start + self.len]
    }
}

impl<W: Copy + PartialEq> Lent<W> {
    /// The first place that differs, counted from the front of the lent part.
    pub fn first_difference(&self, other: &Lent<W>) -> Option<(i64, W, W)> {
        // Mostly there is none, and a whole comparison is quicker.
        if self.all == other.all {
            return None;
        }
        let place = (0..self.all.len()).find(|&i| self.all[i] != other.all[i])?;
        let entry = place as i64 - self.start as i64;
        Some((entry, self.all[place], other.all[place]))
    }
}

impl<W: Copy> Lent<W> {
    /// A lent part that holds these words.
    pub fn holding(random: &mut Random, words: &[W], fill: impl FnMut(&mut Random) -> W) -> Self {
        let mut lent = lend(random, 0, fill);
        let (before, behind) = lent.all.split_at(lent.start);
        lent.all = [before, words, behind].concat();
        lent.len = words.len();
        lent
    }
}

pub fn lend<W>(random: &mut Random, len: usize, mut fill: impl FnMut(&mut Random) -> W) -> Lent<W> {
    let start = random.between(1, MOST_MARGIN) as usize;
    let behind = random.between(1, MOST_MARGIN) as usize;
    Lent {
        all: (0..start + len + behind).map(|_| fill(random)).collect(),
        start,
        len,
    }
}

/// Everything that one call is lent.
#[derive(Clone)]
pub struct Buffers {
    pub list: Lent<u64>,
    pub startup: Lent<u8>,
    pub cycle: Lent<u8>,
    pub row: Lent<u64>,
}

impl Buffers {
    pub fn for_case(random: &mut Random, case: &Case) -> Buffers {
        Buffers {
            list: Lent::holding(random, &case.list, Random::next),
            startup: lend(random, case.startup_len, Random::byte),
            cycle: lend(random, case.cycle_len, Random::byte),
            row: lend(random, case.row_len, Random::next),
        }
    }
}
