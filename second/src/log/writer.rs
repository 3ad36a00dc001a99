//! A plan appended to a log: its blocks and its trailer, put after the last trailer there.

use super::{last_trailer, Plan, BLOCK, CARRIED, LONGEST_PART, PLAN, TRAILER};

/// Why a plan is not appended; both may apply.
#[derive(Clone, Copy, PartialEq, Debug)]
pub struct Refused {
    pub room: bool,
    pub length: bool,
}

/// Appends to the log that the first `used` bytes are, or all: how many are used then.
pub fn append(buffer: &mut [u8], used: u64, plan: &Plan) -> Result<usize, Refused> {
    let used = (buffer.len() as u64).min(used) as usize;
    let start = end_of_last_plan(&buffer[..used]);
    let blocks = written(plan);
    let refused = Refused {
        room: blocks.len() > buffer.len() - start,
        length: plan.startup.len().max(plan.cycle.len()) > LONGEST_PART,
    };
    if refused.room || refused.length {
        return Err(refused);
    }
    let end = start + blocks.len();
    buffer[start..end].copy_from_slice(&blocks);
    Ok(end)
}

/// Just after the last trailer, or the front where there is none.
pub fn end_of_last_plan(log: &[u8]) -> usize {
    match last_trailer(log) {
        Some(at) => BLOCK * at + BLOCK,
        None => 0,
    }
}

/// The bytes of a plan and its trailer; of a length that is too large the trailer has the low 16 bits.
pub fn written(plan: &Plan) -> Vec<u8> {
    let entries = [&plan.startup[..], &plan.cycle].concat();
    let mut blocks: Vec<Vec<u8>> = entries
        .chunks(CARRIED)
        .map(|carried| block(PLAN, carried))
        .collect();
    blocks.push(trailer([
        blocks.len(),
        plan.startup.len(),
        plan.cycle.len(),
    ]));
    blocks.concat()
}

/// A trailer with these three numbers.
pub fn trailer(numbers: [usize; 3]) -> Vec<u8> {
    block(
        TRAILER,
        &numbers
            .map(|n| [n, n / 256].map(|half| half as u8))
            .concat(),
    )
}

fn block(kind: u8, front: &[u8]) -> Vec<u8> {
    let mut block = [&[kind], front].concat();
    block.resize(BLOCK, 0);
    block
}

#[cfg(test)]
mod tests {
    use super::*;
    use crate::log::padded;

    fn plan(startup: &[u8], cycle: &[u8]) -> Plan {
        let (startup, cycle) = (startup.to_vec(), cycle.to_vec());
        Plan { startup, cycle }
    }

    fn refused(room: bool, length: bool) -> Result<usize, Refused> {
        Err(Refused { room, length })
    }

    #[test]
    fn a_small_plan_is_one_block_and_a_trailer() {
        let mut log = vec![77; 130];
        let plan = plan(&[0, 1, 0, 255, 0], &[1, 0, 255, 0]);
        assert_eq!(append(&mut log, 0, &plan), Ok(128));
        let block = padded(&[1, 0, 1, 0, 255, 0, 1, 0, 255, 0]);
        let trailer = padded(&[2, 1, 0, 5, 0, 4, 0]);
        assert_eq!(log, [block, trailer, vec![77; 2]].concat());
    }

    #[test]
    fn an_empty_plan_is_a_trailer_alone() {
        let mut log = vec![77; 64];
        assert_eq!(append(&mut log, 0, &plan(&[], &[])), Ok(64));
        assert_eq!(log, padded(&[2]));
    }

    #[test]
    fn the_cycle_goes_on_in_the_block_where_the_startup_ends() {
        let bytes = written(&plan(&[5; 62], &[6, 7]));
        let first = [&[1][..], &[5; 62], &[6]].concat();
        let trailer = padded(&[2, 2, 0, 62, 0, 2, 0]);
        assert_eq!(bytes, [first, padded(&[1, 7]), trailer].concat());
    }

    #[test]
    fn numbers_have_their_low_byte_first() {
        let bytes = written(&plan(&[0; 32_768], &[0; 16_385]));
        // 49,153 entries are 780 blocks of 63, and 13 entries more: 781 is 3 * 256 + 13.
        assert_eq!(bytes.len(), 64 * 782);
        let trailer = padded(&[2, 13, 3, 0, 128, 1, 64]);
        assert_eq!(bytes[64 * 781..], trailer);
    }

    #[test]
    fn the_longest_plan_takes_133_248_bytes() {
        let longest = plan(&[9; 65_535], &[9; 65_535]);
        let mut log = vec![0; 133_248];
        assert_eq!(append(&mut log, 0, &longest), Ok(133_248));
        // 2,081 blocks: 2,080 have 131,040 entries, and 30 are left.
        assert_eq!(log[133_184..133_191], [2, 33, 8, 255, 255, 255, 255]);
        assert_eq!(
            log[133_120..133_184],
            padded(&[&[1][..], &[9; 30]].concat())
        );
        assert_eq!(append(&mut log[1..], 0, &longest), refused(true, false));
    }

    #[test]
    fn a_length_above_16_bits_is_refused_whatever_the_room() {
        let mut log = vec![0; 70_000];
        let startup = plan(&[0; 65_536], &[]);
        let cycle = plan(&[], &[0; 65_536]);
        assert_eq!(append(&mut log, 0, &startup), refused(false, true));
        assert_eq!(append(&mut log, 0, &cycle), refused(false, true));
        assert_eq!(append(&mut [], 0, &cycle), refused(true, true));
        assert!(append(&mut log, 0, &plan(&[0; 65_535], &[])).is_ok());
    }

    #[test]
    fn what_is_unfinished_is_cut_back_and_what_is_not_reached_stays() {
        let first = [padded(&[1, 4]), padded(&[2, 1, 0, 1, 0, 0, 0])].concat();
        let torn = [vec![1; 64], vec![1; 64], vec![2; 63]].concat();
        let before = [first.clone(), torn.clone()].concat();
        let mut log = before.clone();
        assert_eq!(
            append(&mut log, before.len() as u64, &plan(&[], &[])),
            Ok(192)
        );
        let after = [first, padded(&[2]), torn[64..].to_vec()].concat();
        assert_eq!(log, after);
        // One byte more, and the torn trailer is a trailer: nothing is cut back.
        let mut log = [before, vec![2], vec![0; 64]].concat();
        assert_eq!(append(&mut log, 320, &plan(&[], &[])), Ok(384));
    }

    #[test]
    fn a_used_count_above_the_buffer_means_all_of_it() {
        let log = [padded(&[0]), padded(&[2]), padded(&[0])].concat();
        let end = |used| append(&mut log.clone(), used, &plan(&[], &[]));
        assert_eq!(end(127), Ok(64));
        for used in [128, 192, 193, 1 << 32, u64::MAX] {
            assert_eq!(end(used), Ok(192), "{used}");
        }
    }
}
