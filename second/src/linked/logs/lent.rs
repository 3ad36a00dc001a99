//! What a call of the reader is lent, besides the log.

use crate::linked::lent::{lend, Lent};
use crate::random::Random;

/// The lengths of what is lent.
#[derive(Clone, Copy)]
pub struct Lengths {
    pub startup: usize,
    pub cycle: usize,
    pub row: usize,
}

#[derive(Clone)]
pub struct Buffers {
    pub startup: Lent<u8>,
    pub cycle: Lent<u8>,
    pub row: Lent<u64>,
}

impl Buffers {
    pub fn of(random: &mut Random, lengths: Lengths) -> Buffers {
        Buffers {
            startup: lend(random, lengths.startup, Random::byte),
            cycle: lend(random, lengths.cycle, Random::byte),
            row: lend(random, lengths.row, Random::next),
        }
    }
}

/// Lengths to try where the parts have these: exact, longer, one short beside a longer one, any, none; and a row that may be
/// short too.
pub fn tried(random: &mut Random, [startup, cycle]: [usize; 2]) -> [Lengths; 6] {
    let longer = [startup, cycle].map(|part| part + random.between(1, 40) as usize);
    let shorter = [startup, cycle].map(|part| random.index(part + 1));
    let parts = [
        [startup, cycle],
        longer,
        [startup.saturating_sub(1), longer[1]],
        [longer[0], cycle.saturating_sub(1)],
        shorter,
        [0, 0],
    ];
    parts.map(|[startup, cycle]| {
        let row = random.pick(&[0, 1, 2, 2, 2, 2, 2, 3, 5]);
        Lengths {
            startup,
            cycle,
            row,
        }
    })
}
