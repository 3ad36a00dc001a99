//! Random plans, and random logs to begin with.

use super::{writer, Log, Plan, BLOCK, CARRIED, LONGEST_PART, TRAILER};
use crate::random::Random;

/// Counts of entries around the borders of a block.
const BORDERS: [usize; 14] = [0, 1, 2, 61, 62, 63, 64, 65, 125, 126, 127, 188, 189, 190];

pub fn plan(random: &mut Random) -> Plan {
    let (startup, cycle) = match random.below(200) {
        0 => (longest(random), length(random)),
        1 => (length(random), longest(random)),
        2 => (longest(random), longest(random)),
        3..=99 => (length(random), length(random)),
        _ => {
            let entries = length(random);
            split(random, entries)
        }
    };
    // Any byte, or those that look like the first of a block, or 0 alone.
    let bytes = random.pick(&[256, 4, 1]);
    plan_below(random, bytes, startup, cycle)
}

/// A plan of so many entries of any kind.
pub fn plan_of(random: &mut Random, startup: usize, cycle: usize) -> Plan {
    plan_below(random, 256, startup, cycle)
}

fn plan_below(random: &mut Random, bytes: u64, startup: usize, cycle: usize) -> Plan {
    let mut part = |length| (0..length).map(|_| random.below(bytes) as u8).collect();
    Plan {
        startup: part(startup),
        cycle: part(cycle),
    }
}

/// As long as a part may be, or one entry longer.
fn longest(random: &mut Random) -> usize {
    LONGEST_PART + random.index(2)
}

fn length(random: &mut Random) -> usize {
    match random.below(10) {
        0..=5 => random.pick(&BORDERS),
        6..=8 => random.index(200),
        _ => random.index(1_500),
    }
}

/// So many entries in two parts, so that the border of a block is met by both together.
fn split(random: &mut Random, entries: usize) -> (usize, usize) {
    let startup = random.index(entries + 1);
    (startup, entries - startup)
}

/// A buffer of any length with some bytes in it: nothing of it is used, or blocks of any kind are.
pub fn log(random: &mut Random) -> Log {
    let blocks = random.pick(&[0, 2, 6, 20]);
    let blocks = random.between(0, blocks);
    let mut buffer: Vec<u8> = (0..blocks).flat_map(|_| block(random)).collect();
    let end = random.index(2 * BLOCK);
    buffer.extend((0..end).map(|_| random.byte()));
    let used = match random.below(3) {
        0 => random.index(buffer.len() + 1),
        _ => 0,
    };
    Log { buffer, used }
}

/// A block that is none of a plan written here, but may look like one.
fn block(random: &mut Random) -> Vec<u8> {
    let kind = random.below(4) as u8;
    if kind == TRAILER && !random.once_in(4) {
        return likely_trailer(random);
    }
    let mut block = vec![0; BLOCK];
    if random.once_in(2) {
        block.fill_with(|| random.byte());
    }
    block[0] = kind;
    block
}

/// A trailer whose numbers go with each other.
fn likely_trailer(random: &mut Random) -> Vec<u8> {
    let count = random.index(3);
    let entries = (CARRIED * count).saturating_sub(random.index(CARRIED));
    let (startup, cycle) = split(random, entries);
    writer::trailer([count, startup, cycle])
}

#[cfg(test)]
mod tests {
    use super::*;
    use crate::log::reader::{find, Found};

    #[test]
    fn logs_that_nobody_wrote_have_each_kind_of_end() {
        let mut random = Random::new(11);
        let mut came = [false; 3];
        for _ in 0..1_000 {
            let log = log(&mut random);
            came[match find(log.part()) {
                Found::NoPlan => 0,
                Found::Damaged(..) => 1,
                Found::Newest(_) => 2,
            }] = true;
        }
        assert_eq!(came, [true; 3]);
    }
}
