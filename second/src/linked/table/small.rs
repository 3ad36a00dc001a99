//! Lists and borders for a small card, some of them for a wide one too.

use super::{feasible, on, other, refused, Tried, ANY, EDF, I, LIST_B, SMALL, UNCHANGED};

/// Task 0 in slot 0, and no other slot.
const ONE_IN_240: [u8; 240] = {
    let mut slots = [I; 240];
    slots[0] = 0;
    slots
};

/// Sixteen tasks, of which the last has a period that the timer does not have.
const LAST_OF_16: [[u64; 4]; 16] = {
    let mut tasks = [[0, 1, 240, 240]; 16];
    tasks[15] = [0, 1, 7, 7];
    tasks
};

const fn small_refused(
    name: &'static str,
    tasks: &'static [[u64; 4]],
    row: &'static [Option<u64>; 2],
) -> Tried {
    on(SMALL, refused(name, tasks, (480, 480), row))
}

const fn not_understood(name: &'static str, card: u64) -> Tried {
    on(card, other(name, EDF, LIST_B, (5, 4), (4, &[]), UNCHANGED))
}

#[rustfmt::skip]
pub const TABLE: &[Tried] = &[
    on(SMALL, feasible("a", ANY, &[[0, 1, 1, 1]], (1, 1),
        &[Some(0), Some(1), Some(1), Some(0), Some(0), Some(0), Some(0)],
        (Some(&[0]), Some(&[0])))),
    on(SMALL, feasible("b", EDF, LIST_B, (5, 4),
        &[Some(1), Some(4), Some(3), Some(1), Some(1), Some(2), Some(1)],
        (Some(&[0, 1, 0, I, 0]), Some(&[1, 0, I, 0])))),
    on(SMALL, other("d", EDF, &[[0, 1, 1, 2], [0, 1, 1, 2]], (2, 2),
        (1, &[Some(1), Some(1)]), Some(&[0]))),
    on(SMALL, other("g", EDF, &[[0, 1, 1, 4], [4, 1, 1, 4]], (8, 4),
        (1, &[Some(1), Some(5)]), Some(&[0, I, I, I, 0]))),
    on(SMALL, other("h", ANY, &[[0, 1, 1, 1], [0, 1, 2, 2]], (2, 2),
        (2, &[Some(3), Some(2)]), UNCHANGED)),
    small_refused("i and j", &[[0, 2, 5, 5], [0, 4, 7, 7]], &[Some(9), Some(1)]),
    small_refused("k", &[[0, 4, 7, 7], [0, 2, 5, 5]], &[Some(9), Some(0)]),
    on(SMALL, feasible("T 240", ANY, &[[0, 1, 240, 240]], (240, 240),
        &[Some(0), Some(240), Some(1), Some(239), Some(239), Some(0), Some(0)],
        (Some(&ONE_IN_240), Some(&ONE_IN_240)))),
    on(SMALL, feasible("T 15 and 16", ANY, &[[0, 1, 15, 15], [0, 1, 16, 16]], (240, 240),
        &[Some(0), Some(240), Some(31), Some(209), Some(209), Some(0), Some(0)],
        (None, None))),
    on(SMALL, feasible("O 16,384", ANY, &[[16_384, 1, 4, 4]], (16_388, 4),
        &[Some(16_384), Some(4), Some(1), Some(16_387), Some(3), Some(0), Some(0)],
        (None, None))),
    feasible("T 7", ANY, &[[0, 1, 7, 7]], (7, 7),
        &[Some(0), Some(7), Some(1), Some(6), Some(6), Some(0), Some(0)],
        (Some(&[0, I, I, I, I, I, I]), Some(&[0, I, I, I, I, I, I]))),
    small_refused("T 7", &[[0, 1, 7, 7]], &[Some(9), Some(0)]),
    feasible("T 480", ANY, &[[0, 1, 480, 480]], (480, 480),
        &[Some(0), Some(480), Some(1), Some(479), Some(479), Some(0), Some(0)],
        (None, None)),
    small_refused("T 480", &[[0, 1, 480, 480]], &[Some(9), Some(0)]),
    small_refused("T 239", &[[0, 1, 1, 239]], &[Some(9), Some(0)]),
    small_refused("T 241", &[[0, 1, 1, 241]], &[Some(9), Some(0)]),
    small_refused("T 240 + 256", &[[0, 1, 1, 496]], &[Some(9), Some(0)]),
    small_refused("T 16,384", &[[0, 1, 1, 16_384]], &[Some(9), Some(0)]),
    small_refused("T 16,385", &[[0, 1, 1, 16_385]], &[Some(2), Some(0)]),
    small_refused("T 2^64 - 1", &[[0, 1, 1, u64::MAX]], &[Some(2), Some(0)]),
    small_refused("T 0", &[[0, 1, 1, 0]], &[Some(2), Some(0)]),
    small_refused("T 9, C 0", &[[0, 0, 9, 9]], &[Some(9), Some(0)]),
    small_refused("T 7, C above D", &[[0, 6, 5, 7]], &[Some(9), Some(0)]),
    small_refused("T 7, D above T", &[[0, 2, 8, 7]], &[Some(9), Some(0)]),
    small_refused("T 7, O 16,385", &[[16_385, 1, 7, 7]], &[Some(9), Some(0)]),
    small_refused("C 0", &[[0, 0, 4, 4]], &[Some(3), Some(0)]),
    small_refused("(0,6,5,4)", &[[0, 6, 5, 4]], &[Some(3), Some(0)]),
    small_refused("(0,2,5,4)", &[[0, 2, 5, 4]], &[Some(4), Some(0)]),
    small_refused("O 16,385", &[[16_385, 1, 4, 4]], &[Some(5), Some(0)]),
    small_refused("T 7 second", &[[0, 1, 4, 4], [0, 1, 7, 7]], &[Some(9), Some(1)]),
    small_refused("C 0, then T 7", &[[0, 0, 4, 4], [0, 1, 7, 7]], &[Some(3), Some(0)]),
    small_refused("D above T, then T 7", &[[0, 2, 5, 4], [0, 1, 7, 7]], &[Some(4), Some(0)]),
    small_refused("O 16,385, then T 7", &[[16_385, 1, 4, 4], [0, 1, 7, 7]], &[Some(5), Some(0)]),
    small_refused("T 7, then T 0", &[[0, 1, 7, 7], [0, 1, 1, 0]], &[Some(9), Some(0)]),
    small_refused("T 0, then T 7", &[[0, 1, 1, 0], [0, 1, 7, 7]], &[Some(2), Some(0)]),
    small_refused("T 128 and 129", &[[0, 1, 128, 128], [0, 1, 129, 129]], &[Some(9), Some(0)]),
    small_refused("the last of 16", &LAST_OF_16, &[Some(9), Some(15)]),
    small_refused("17 tasks, T 7", &[[0, 1, 7, 7]; 17], &[Some(1), Some(0)]),
    small_refused("no task", &[], &[Some(1), Some(0)]),
    on(SMALL, refused("T 7, no room", &[[0, 1, 7, 7]], (0, 0), &[Some(9), Some(0)])),
    on(SMALL, refused("b, startup 4", LIST_B, (4, 4), &[Some(7), Some(0)])),
    on(SMALL, refused("b, cycle 3", LIST_B, (5, 3), &[Some(8), Some(0)])),
    not_understood("b, a card of 2", 2),
    not_understood("b, a card of 256", 256),
    not_understood("b, a card of 2^32 + 1", (1 << 32) + 1),
];
