//! The library's reader and our own on the same log and buffers.

use super::lent::{tried, Buffers, Lengths};
use super::tally::Tally;
use crate::linked::compare::place;
use crate::linked::lent::Lent;
use crate::log::reader::{find, Found};
use crate::log::Log;
use crate::random::Random;

const NOT_UNDERSTOOD: u64 = 4;
const NO_PLAN: u64 = 20;
const DAMAGED: u64 = 21;
const SHORT: u64 = 22;

/// A buffer that a damaged trailer asks for is rarely as long as it says.
const MOST_ASKED: usize = 300;

/// What differs for this log, in any of the buffers.
pub fn compare(log: &Log, random: &mut Random, tally: &mut Tally) -> Vec<String> {
    let found = find(log.part());
    // What stands in the buffer past the used bytes is right behind what is lent.
    let mut lent = Lent::holding(random, &log.buffer, Random::byte);
    lent.len = log.used;
    let before = lent.clone();
    let mut lines = Vec::new();
    let asked = asked(random, &found);
    for lengths in tried(random, asked) {
        tally.add_read(log, &found, lengths);
        let buffers = Buffers::of(random, lengths);
        let differ = compare_in(lent.part(), &found, &buffers);
        let told = tell_lengths(lengths);
        lines.extend(differ.iter().map(|line| format!("read, {told}: {line}")));
    }
    let changed = place("second", "log byte", &before, &lent);
    lines.extend(changed.map(|line| format!("read: {line}")));
    lines
}

/// The entries that exact buffers have.
fn asked(random: &mut Random, found: &Found) -> [usize; 2] {
    match found {
        Found::NoPlan => [random.index(70), random.index(70)],
        Found::Damaged(_, lengths) if !random.once_in(50) => {
            lengths.map(|length| length.min(MOST_ASKED))
        }
        Found::Damaged(_, lengths) => *lengths,
        Found::Newest(plan) => [plan.startup.len(), plan.cycle.len()],
    }
}

/// What differs where these bytes are the log and these buffers are lent.
pub fn compare_in(log: &[u8], found: &Found, buffers: &Buffers) -> Vec<String> {
    let (mut ours, mut theirs) = (buffers.clone(), buffers.clone());
    let answers = (by_second(found, &mut ours), by_library(log, &mut theirs));
    let told = format!("answers: second {}, library {}", answers.0, answers.1);
    let lines = [
        Some(told).filter(|_| answers.0 != answers.1),
        place("second", "startup entry", &ours.startup, &theirs.startup),
        place("second", "cycle entry", &ours.cycle, &theirs.cycle),
        place("second", "length", &ours.row, &theirs.row),
    ];
    lines.into_iter().flatten().collect()
}

/// What is answered, with the buffers changed where a plan is handed over.
fn by_second(found: &Found, buffers: &mut Buffers) -> u64 {
    if buffers.row.len < 2 {
        return NOT_UNDERSTOOD;
    }
    let plan = match found {
        Found::NoPlan => return NO_PLAN,
        Found::Damaged(..) => return DAMAGED,
        Found::Newest(plan) => plan,
    };
    let lengths = [plan.startup.len(), plan.cycle.len()];
    if buffers.startup.len < lengths[0] || buffers.cycle.len < lengths[1] {
        return SHORT;
    }
    buffers.startup.part_mut()[..lengths[0]].copy_from_slice(&plan.startup);
    buffers.cycle.part_mut()[..lengths[1]].copy_from_slice(&plan.cycle);
    buffers.row.part_mut()[..2].copy_from_slice(&lengths.map(|length| length as u64));
    0
}

fn by_library(log: &[u8], buffers: &mut Buffers) -> u64 {
    sholakpite::log::read_words(
        log,
        buffers.startup.part_mut(),
        buffers.cycle.part_mut(),
        buffers.row.part_mut(),
    )
}

fn tell_lengths(lengths: Lengths) -> String {
    let Lengths {
        startup,
        cycle,
        row,
    } = lengths;
    format!("buffers of {startup}, {cycle} and {row}")
}
