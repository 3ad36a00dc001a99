//! The newest plan of a log, or what stands in its place.

use super::{last_trailer, Plan, BLOCK, CARRIED, PLAN};

/// What is wrong with a log, each thing by itself.
pub const REASONS: [&str; 5] = [
    "the block count",
    "before the start",
    "another kind",
    "a pad byte",
    "the trailer's rest",
];

#[derive(Clone, PartialEq, Debug)]
pub enum Found {
    NoPlan,
    /// Which of the reasons apply, and the lengths that the trailer says.
    Damaged([bool; 5], [usize; 2]),
    Newest(Plan),
}

impl Found {
    pub fn lengths(&self) -> Option<[usize; 2]> {
        match self {
            Found::NoPlan => None,
            Found::Damaged(_, lengths) => Some(*lengths),
            Found::Newest(plan) => Some([plan.startup.len(), plan.cycle.len()]),
        }
    }
}

pub fn find(log: &[u8]) -> Found {
    let Some(at) = last_trailer(log) else {
        return Found::NoPlan;
    };
    let (before, trailer) = log.split_at(BLOCK * at);
    let trailer = &trailer[1..BLOCK];
    let [count, startup, cycle] = numbers(trailer);
    // Where it points before the start, what is there is covered.
    let covered = &before[BLOCK * at.saturating_sub(count)..];
    let (kinds, mut carried) = opened(covered);
    let pads = carried.split_off(carried.len().min(startup + cycle));
    let reasons = [
        count != blocks_of(startup + cycle),
        count > at,
        kinds.iter().any(|&kind| kind != PLAN),
        pads.iter().any(|&byte| byte != 0),
        trailer[6..].iter().any(|&byte| byte != 0),
    ];
    if reasons.contains(&true) {
        return Found::Damaged(reasons, [startup, cycle]);
    }
    let cycle = carried.split_off(startup);
    let startup = carried;
    Found::Newest(Plan { startup, cycle })
}

/// How many blocks so many entries take: a new one begins at every 63rd entry.
fn blocks_of(entries: usize) -> usize {
    (0..entries).step_by(CARRIED).count()
}

/// The three numbers at the front of these bytes, low byte first.
fn numbers(bytes: &[u8]) -> [usize; 3] {
    [0, 2, 4].map(|at| usize::from(bytes[at]) + 256 * usize::from(bytes[at + 1]))
}

/// The first bytes of some blocks, and all their other bytes in a row, byte by byte.
fn opened(blocks: &[u8]) -> (Vec<u8>, Vec<u8>) {
    let mut kinds = Vec::new();
    let mut rest = Vec::new();
    for (at, &byte) in blocks.iter().enumerate() {
        match at % BLOCK {
            0 => kinds.push(byte),
            _ => rest.push(byte),
        }
    }
    (kinds, rest)
}

#[cfg(test)]
mod tests {
    use super::*;
    use crate::log::padded;

    fn newest(startup: &[u8], cycle: &[u8]) -> Found {
        let (startup, cycle) = (startup.to_vec(), cycle.to_vec());
        Found::Newest(Plan { startup, cycle })
    }

    /// Refused 21 for this reason alone.
    fn damaged(reason: usize, lengths: [usize; 2]) -> Found {
        let mut reasons = [false; 5];
        reasons[reason] = true;
        Found::Damaged(reasons, lengths)
    }

    fn log_b() -> Vec<u8> {
        let block = padded(&[1, 0, 1, 0, 255, 0, 1, 0, 255, 0]);
        [block, padded(&[2, 1, 0, 5, 0, 4, 0])].concat()
    }

    #[test]
    fn a_whole_plan_is_handed_over() {
        assert_eq!(find(&log_b()), newest(&[0, 1, 0, 255, 0], &[1, 0, 255, 0]));
        assert_eq!(find(&padded(&[2])), newest(&[], &[]));
        let first = [&[1][..], &[5; 62], &[6]].concat();
        let trailer = padded(&[2, 2, 0, 62, 0, 2, 0]);
        let log = [first, padded(&[1, 7]), trailer].concat();
        assert_eq!(find(&log), newest(&[5; 62], &[6, 7]));
    }

    #[test]
    fn what_is_unfinished_or_of_no_kind_is_stepped_over() {
        let newest = newest(&[0, 1, 0, 255, 0], &[1, 0, 255, 0]);
        let unfinished = [vec![1; 64], vec![0; 64], vec![3; 64], vec![2; 63]].concat();
        for cut in 0..unfinished.len() {
            let log = [&log_b()[..], &unfinished[..cut]].concat();
            assert_eq!(find(&log), newest);
            assert_eq!(find(&unfinished[..cut]), Found::NoPlan);
        }
        for cut in 0..128 {
            assert_eq!(find(&log_b()[..cut]), Found::NoPlan);
        }
    }

    #[test]
    fn each_reason_is_a_refusal_by_itself() {
        let changed = |at: usize, byte| {
            let mut log = log_b();
            log[at] = byte;
            find(&log)
        };
        assert_eq!(changed(65, 0), damaged(0, [5, 4]));
        assert_eq!(find(&log_b()[64..]), damaged(1, [5, 4]));
        for kind in [0, 2, 3, 255] {
            assert_eq!(changed(0, kind), damaged(2, [5, 4]));
        }
        assert_eq!(changed(10, 1), damaged(3, [5, 4]));
        assert_eq!(changed(63, 1), damaged(3, [5, 4]));
        // Entry 7 is no entry any more, and is not 0.
        assert_eq!(changed(67, 3), damaged(3, [3, 4]));
        assert_eq!(changed(71, 1), damaged(4, [5, 4]));
        assert_eq!(changed(127, 1), damaged(4, [5, 4]));
    }

    #[test]
    fn several_reasons_may_apply() {
        let log = [padded(&[2]), padded(&[2, 1, 0, 0, 0, 0, 1, 9])].concat();
        let reasons = [true, false, true, false, true];
        assert_eq!(find(&log), Found::Damaged(reasons, [0, 256]));
        let wild = vec![2; 64];
        let reasons = [true, true, false, false, true];
        assert_eq!(find(&wild), Found::Damaged(reasons, [514, 514]));
    }

    /// How often a single other byte gives no plan, a refusal and a plan.
    fn after_a_change(log: &[u8]) -> [usize; 3] {
        let mut counts = [0; 3];
        for at in 0..log.len() {
            for byte in (0..=255).filter(|&byte| byte != log[at]) {
                let mut changed = log.to_vec();
                changed[at] = byte;
                counts[match find(&changed) {
                    Found::NoPlan => 0,
                    Found::Damaged(..) => 1,
                    Found::Newest(_) => 2,
                }] += 1;
            }
        }
        counts
    }

    #[test]
    fn single_bytes_are_noticed_as_often_as_the_format_allows() {
        // The trailer's first byte gives no plan. Each of 9 entries may be any other. A length may be 54 larger, as far as
        // the block goes, and 1 smaller, as the last entry is 0.
        let plans = 9 * 255 + 2 * (54 + 1);
        assert_eq!(after_a_change(&log_b()), [255, 127 * 255 - plans, plans]);
    }
}
