//! A log damaged: its last trailer, the blocks before it, any byte.

use super::{last_trailer, writer, Log, BLOCK, CARRIED, LONGEST_PART};
use crate::random::Random;

/// Damages a log whose last trailer begins at this byte.
type Spoil = fn(&mut Random, &mut Log, usize);

/// Each damage, by its name.
pub const SPOILS: [(&str, Spoil); 15] = [
    ("a byte of the trailer", |r, log, at| {
        any_byte(r, &mut log.buffer[at..at + BLOCK])
    }),
    ("a byte of the trailer's rest", |r, log, at| {
        any_byte(r, &mut log.buffer[at + 7..at + BLOCK])
    }),
    ("the count one more", |_, log, at| add(log, at + 1, 1)),
    ("the count one less", |_, log, at| add(log, at + 1, !0)),
    ("a length one more", |r, log, at| {
        add(log, at + r.pick(&[3, 5]), 1)
    }),
    ("a length one less", |r, log, at| {
        add(log, at + r.pick(&[3, 5]), !0)
    }),
    ("any count", |r, log, at| {
        put(log, at + 1, r.next() as u16);
    }),
    ("a count before the start", before_the_start),
    ("lengths near 65,535", near_the_longest),
    ("lengths swapped", |_, log, at| {
        log.buffer[at + 3..at + 7].rotate_left(2)
    }),
    ("a number with its high byte first", |r, log, at| {
        let number = at + r.pick(&[1, 3, 5]);
        log.buffer.swap(number, number + 1);
    }),
    ("another kind", |r, log, at| {
        let block = BLOCK * r.index(at / BLOCK + 1);
        log.buffer[block] = r.pick(&[0, 1, 2, 3, 129, 255]);
    }),
    ("the end of the last block", |r, log, at| {
        // Mostly a pad byte, otherwise an entry.
        let byte = at.saturating_sub(1 + r.index(4));
        log.buffer[byte] = r.byte();
    }),
    ("any byte", |r, log, _| {
        any_byte(r, &mut log.buffer[..log.used])
    }),
    ("the first block lost", |_, log, _| {
        log.buffer.copy_within(BLOCK.., 0);
        log.used -= BLOCK;
    }),
];

/// One of the damages, and its name; nothing where there is no trailer.
pub fn spoil(random: &mut Random, log: &mut Log) -> Option<&'static str> {
    let at = BLOCK * last_trailer(log.part())?;
    let (name, spoil) = random.pick(&SPOILS);
    spoil(random, log, at);
    Some(name)
}

fn any_byte(random: &mut Random, bytes: &mut [u8]) {
    let at = random.index(bytes.len());
    bytes[at] = random.byte();
}

/// A number of a trailer, low byte first.
fn put(log: &mut Log, at: usize, number: u16) {
    log.buffer[at..at + 2].copy_from_slice(&number.to_le_bytes());
}

fn add(log: &mut Log, at: usize, more: u16) {
    let number = u16::from_le_bytes([log.buffer[at], log.buffer[at + 1]]);
    put(log, at, number.wrapping_add(more));
}

/// Numbers that go with each other, for more blocks than there are.
fn before_the_start(random: &mut Random, log: &mut Log, at: usize) {
    let count = at / BLOCK + 1 + random.index(3);
    let entries = CARRIED * count - random.index(CARRIED);
    let startup = random.index(entries.min(LONGEST_PART) + 1);
    let numbers = [count, startup, entries - startup];
    log.buffer[at..at + BLOCK].copy_from_slice(&writer::trailer(numbers));
}

/// Lengths whose sum is past 16 bits, with the count that goes with them or one near it.
fn near_the_longest(random: &mut Random, log: &mut Log, at: usize) {
    let [startup, cycle] = [(); 2].map(|()| LONGEST_PART - random.index(3));
    let low = (startup + cycle) % 65_536;
    // Also the count of the sum cut to 16 bits.
    let count = random.pick(&[
        (startup + cycle).div_ceil(CARRIED),
        low.div_ceil(CARRIED),
        0,
    ]);
    for (place, number) in [(1, count), (3, startup), (5, cycle)] {
        put(log, at + place, number as u16);
    }
}

#[cfg(test)]
mod tests {
    use super::*;
    use crate::log::made::plan_of;
    use crate::log::reader::{find, Found};

    #[test]
    fn each_damage_changes_what_some_log_says() {
        let mut random = Random::new(3);
        for (name, spoil) in SPOILS {
            let noticed = (0..200).any(|_| {
                let entries = random.index(130);
                let plan = plan_of(&mut random, entries, 3);
                let buffer = writer::written(&plan);
                let used = buffer.len();
                let mut log = Log { buffer, used };
                spoil(&mut random, &mut log, used - BLOCK);
                find(log.part()) != Found::Newest(plan)
            });
            assert!(noticed, "{name}");
        }
    }
}
