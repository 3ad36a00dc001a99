//! A log of plans: appended to, read, cut by the power and damaged.

use sholakpite::log::{append, needs, read, read_words, Read, BLOCK, LONGEST_PART};

/// The tables of list b of document 01.
const STARTUP: [u8; 5] = [0, 1, 0, 255, 0];
const CYCLE: [u8; 4] = [1, 0, 255, 0];

/// A block with these bytes at its front and 0 behind them.
fn block(front: &[u8]) -> Vec<u8> {
    let mut block = front.to_vec();
    block.resize(BLOCK, 0);
    block
}

/// The whole log of list b's tables, as the request has it.
fn log_b() -> Vec<u8> {
    let plan = block(&[1, 0, 1, 0, 255, 0, 1, 0, 255, 0]);
    [plan, block(&[2, 1, 0, 5, 0, 4, 0])].concat()
}

/// What is read, and both buffers, filled with 99 before.
fn handed(log: &[u8], startup: usize, cycle: usize) -> (Read, Vec<u8>, Vec<u8>) {
    let mut startup = vec![99; startup];
    let mut cycle = vec![99; cycle];
    let read = read(log, &mut startup, &mut cycle);
    (read, startup, cycle)
}

fn nothing(read: Read, startup: usize, cycle: usize) -> (Read, Vec<u8>, Vec<u8>) {
    (read, vec![99; startup], vec![99; cycle])
}

fn plan_b() -> Read {
    Read::Plan {
        startup: 5,
        cycle: 4,
    }
}

#[test]
fn list_b_is_appended_and_read() {
    let mut log = vec![77; 200];
    assert_eq!(append(&mut log, 0, &STARTUP, &CYCLE), Some(128));
    assert_eq!(log, [log_b(), vec![77; 72]].concat());
    let startup = vec![0, 1, 0, 255, 0, 99];
    let cycle = vec![1, 0, 255, 0, 99, 99];
    assert_eq!(handed(&log[..128], 6, 6), (plan_b(), startup, cycle));
    assert_eq!(handed(&log[..128], 5, 4).0, plan_b());
}

#[test]
fn a_power_cut_leaves_the_plan_before() {
    let mut log = vec![0; 320];
    let used = append(&mut log, 0, &[7; 63], &[]).expect("it fits");
    let end = append(&mut log, used, &STARTUP, &CYCLE).expect("it fits");
    assert_eq!((used, end), (128, 256));
    for cut in 0..used {
        assert_eq!(handed(&log[..cut], 70, 9), nothing(Read::NoPlan, 70, 9));
    }
    let before = Read::Plan {
        startup: 63,
        cycle: 0,
    };
    let sevens = [[7; 63].to_vec(), vec![99; 7]].concat();
    for cut in used..end {
        let left = handed(&log[..cut], 70, 9);
        assert_eq!(left, (before, sevens.clone(), vec![99; 9]));
    }
    assert_eq!(handed(&log[..end], 70, 9).0, plan_b());
}

#[test]
fn an_unfinished_plan_is_cut_back() {
    let mut log = vec![77; 400];
    append(&mut log, 0, &STARTUP, &CYCLE).expect("it fits");
    append(&mut log, 128, &[9; 100], &[]).expect("it fits");
    let unfinished = log[256..].to_vec();
    assert_eq!(append(&mut log, 300, &[8], &[]), Some(256));
    let plan = [block(&[1, 8]), block(&[2, 1, 0, 1, 0, 0, 0])].concat();
    assert_eq!(log, [log_b(), plan, unfinished].concat());
}

#[test]
fn a_count_above_the_buffer_means_all_of_it() {
    for used in [256, 257, usize::MAX] {
        let mut log = [log_b(), block(&[]), block(&[])].concat();
        assert_eq!(append(&mut log, used, &[], &[]), Some(192));
        assert_eq!(log, [log_b(), block(&[2]), block(&[])].concat());
    }
}

#[test]
fn what_does_not_fit_is_not_appended() {
    for (used, after) in [(None, vec![77; 127]), (Some(128), log_b())] {
        let mut log = vec![77; after.len()];
        assert_eq!(append(&mut log, 0, &STARTUP, &CYCLE), used);
        assert_eq!(log, after);
    }
    let mut log = vec![77; 200_000];
    let long = vec![0; LONGEST_PART + 1];
    assert_eq!(append(&mut log, 0, &long, &[]), None);
    assert_eq!(append(&mut log, 0, &[], &long), None);
    assert!(log.iter().all(|&byte| byte == 77));
    let longest = &long[1..];
    assert_eq!(append(&mut log, 0, longest, longest), Some(133_248));
}

#[test]
fn a_plan_needs_its_blocks_and_a_trailer() {
    assert_eq!(needs(0, 0), Some(64));
    assert_eq!(needs(62, 1), Some(128));
    assert_eq!(needs(63, 1), Some(192));
    assert_eq!(needs(LONGEST_PART, LONGEST_PART), Some(133_248));
    assert_eq!(needs(LONGEST_PART + 1, 0), None);
    assert_eq!(needs(0, usize::MAX), None);
}

#[test]
fn no_plan_and_damage_and_short_buffers_change_nothing() {
    assert_eq!(handed(&[], 5, 4), nothing(Read::NoPlan, 5, 4));
    assert_eq!(handed(&log_b()[..64], 5, 4), nothing(Read::NoPlan, 5, 4));
    // Another kind, a pad byte, the count, each length, the rest.
    for at in [0, 10, 63, 65, 66, 68, 70, 71, 127] {
        let mut log = log_b();
        log[at] ^= 64;
        assert_eq!(handed(&log, 5, 4), nothing(Read::Damaged, 5, 4), "{at}");
    }
    let before_the_start = &log_b()[64..];
    assert_eq!(handed(before_the_start, 5, 4), nothing(Read::Damaged, 5, 4));
    for (startup, cycle) in [(4, 4), (5, 3), (0, 0)] {
        assert_eq!(
            handed(&log_b(), startup, cycle),
            nothing(Read::Short, startup, cycle)
        );
    }
}

#[test]
fn a_row_of_two_words_is_needed_first() {
    for (words, code) in [(0, 4), (1, 4), (2, 0), (3, 0)] {
        let (mut startup, mut cycle) = ([99; 5], [99; 4]);
        let mut lengths = vec![1_000; words];
        let answered = read_words(&log_b(), &mut startup, &mut cycle, &mut lengths);
        assert_eq!(answered, code);
        let (first, second) = if code == 0 {
            (STARTUP, CYCLE)
        } else {
            ([99; 5], [99; 4])
        };
        assert_eq!((startup, cycle), (first, second));
        let expected: &[u64] = if code == 0 { &[5, 4, 1_000] } else { &[1_000] };
        assert_eq!(lengths, expected[..words]);
        let of_no_log = read_words(&[], &mut [], &mut [], &mut lengths);
        assert_eq!(of_no_log, if code == 0 { 20 } else { 4 });
        assert_eq!(lengths, expected[..words]);
    }
}
