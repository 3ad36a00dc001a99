//! What happens to a log one after the other: damage, power cuts, plans appended; each time it is read.

use super::append::{self, Call};
use super::read;
use super::tally::Tally;
use crate::log::spoil::spoil;
use crate::log::writer::{end_of_last_plan, written};
use crate::log::{made, Log, Plan};
use crate::random::Random;
use crate::text::tell;

/// Used counts far above any buffer's length; some are small once they are cut to 32 bits.
const FAR: [u64; 4] = [1 << 32, (1 << 32) + 64, 1 << 63, u64::MAX];

/// One log; what differs, with what it was found on.
pub fn run(random: &mut Random, say: bool, tally: &mut Tally) -> Vec<String> {
    let mut log = made::log(random);
    let mut lines = Vec::new();
    for _ in 0..random.between(1, 4) {
        befall(random, &mut log, tally);
        lines.extend(step(random, &mut log, say, tally));
        // What comes after a difference was made by one side alone.
        if !lines.is_empty() {
            return lines;
        }
    }
    lines
}

/// Nothing, a power cut, damage, or both.
fn befall(random: &mut Random, log: &mut Log, tally: &mut Tally) {
    if random.once_in(3) {
        log.used = random.index(log.used + 1);
    }
    if random.once_in(3) {
        let name = spoil(random, log);
        name.iter().for_each(|name| tally.add_damage(name));
    }
}

/// The log read, a plan appended, and the log read again.
fn step(random: &mut Random, log: &mut Log, say: bool, tally: &mut Tally) -> Vec<String> {
    let plan = made::plan(random);
    make_room(random, log, &plan);
    let used = used(random, log);
    let told = tell(log.part());
    if say {
        eprintln!("{told}");
    }
    let mut lines = read::compare(log, random, tally);
    lines.extend(append::compare(log, &Call { plan, used }, random, tally));
    lines.extend(read::compare(log, random, tally));
    if !lines.is_empty() {
        lines.insert(0, told);
    }
    lines
}

/// Room that is exact, one byte short, larger, or whatever there is.
fn make_room(random: &mut Random, log: &mut Log, plan: &Plan) {
    let exact = end_of_last_plan(log.part()) + written(plan).len();
    let room = match random.below(8) {
        0 => exact,
        1 => exact - 1,
        2..=5 => exact + random.index(500),
        _ => log.buffer.len(),
    };
    log.buffer.resize_with(room, || random.byte());
    log.used = log.used.min(room);
}

/// How many bytes are said to be used: sometimes more than there are, which means all.
fn used(random: &mut Random, log: &mut Log) -> u64 {
    if !random.once_in(10) {
        return log.used as u64;
    }
    log.used = log.buffer.len();
    let near = log.used as u64 + random.between(1, 64);
    let far = random.pick(&FAR);
    random.pick(&[near, far])
}
