//! The small card: the periods that its timer has, and where refusal 9 comes among the others. Worked out by hand.

mod lists;

use lists::{task, LIST_B, PLAN_B};
use sholakpite::{
    check, check_card, check_tasks_card, check_words, check_words_card, Answer, Card, Policy, Task,
    IDLE, ROW,
};

const EDF: Policy = Policy::EarliestDeadlineFirst;

/// What stands where nothing was written.
const UNWRITTEN: u8 = 99;

/// Entries of a buffer, enough for each list here that has tables.
const ROOM: usize = 480;

/// The small card's periods, as the request lists them.
const PERIODS: [u64; 20] = [
    1, 2, 3, 4, 5, 6, 8, 10, 12, 15, 16, 20, 24, 30, 40, 48, 60, 80, 120, 240,
];

/// The answer, and both buffers.
fn checked(card: Card, list: &[Task]) -> (Answer, Vec<u8>, Vec<u8>) {
    let mut startup = vec![UNWRITTEN; ROOM];
    let mut cycle = vec![UNWRITTEN; ROOM];
    let answer = check_card(card, list, EDF, &mut startup, &mut cycle);
    (answer, startup, cycle)
}

/// A list that is refused on a small card, with nothing written.
fn refused(list: &[Task], number: u64, task: u64) {
    let nothing = vec![UNWRITTEN; ROOM];
    assert_eq!(
        checked(Card::Small, list),
        (Answer::Refused { number, task }, nothing.clone(), nothing),
        "{list:?}"
    );
}

fn feasible(card: Card, list: &[Task]) {
    let (answer, ..) = checked(card, list);
    assert!(
        matches!(answer, Answer::Feasible(_)),
        "{list:?}: {answer:?}"
    );
}

#[test]
fn list_b_is_the_same_on_either_card() {
    for card in [Card::Wide, Card::Small] {
        let (answer, startup, cycle) = checked(card, &LIST_B);
        assert_eq!(answer, Answer::Feasible(PLAN_B));
        assert_eq!(startup[..6], [0, 1, 0, IDLE, 0, UNWRITTEN]);
        assert_eq!(cycle[..5], [1, 0, IDLE, 0, UNWRITTEN]);
    }
}

#[test]
fn twenty_periods_pass_and_no_other() {
    for period in 1..=ROOM as u64 {
        let list = [task(0, 1, 1, period)];
        feasible(Card::Wide, &list);
        if PERIODS.contains(&period) {
            feasible(Card::Small, &list);
        } else {
            refused(&list, 9, 0);
        }
    }
}

#[test]
fn a_period_past_its_limits_is_refused_2_and_not_9() {
    refused(&[task(0, 1, 1, 0)], 2, 0);
    refused(&[task(0, 1, 1, 16_385)], 2, 0);
    refused(&[task(0, 1, 1, u64::MAX)], 2, 0);
    refused(&[task(0, 1, 1, 16_384)], 9, 0);
}

#[test]
fn refusal_9_comes_before_3_4_and_5_of_the_same_task() {
    refused(&[task(0, 0, 9, 9)], 9, 0);
    refused(&[task(0, 6, 5, 7)], 9, 0);
    refused(&[task(0, 1, 8, 7)], 9, 0);
    refused(&[task(16_385, 1, 7, 7)], 9, 0);
    refused(&[task(0, 0, 8, 8)], 3, 0);
    refused(&[task(0, 1, 9, 8)], 4, 0);
    refused(&[task(16_385, 1, 8, 8)], 5, 0);
}

#[test]
fn an_earlier_task_is_refused_first() {
    let other_period = task(0, 1, 7, 7);
    refused(&[task(0, 0, 4, 4), other_period], 3, 0);
    refused(&[task(0, 1, 5, 4), other_period], 4, 0);
    refused(&[task(16_385, 1, 4, 4), other_period], 5, 0);
    refused(&[task(0, 1, 4, 4), other_period], 9, 1);
    refused(&[other_period, task(0, 1, 1, 0)], 9, 0);
    refused(&[task(0, 1, 128, 128), task(0, 1, 129, 129)], 9, 0);
    refused(&[other_period; 17], 1, 0);
    refused(&[], 1, 0);
}

#[test]
fn short_buffers_come_after_9() {
    let on_small = |list: &[Task], startup: usize, cycle: usize| {
        let mut buffers = (vec![0; startup], vec![0; cycle]);
        check_card(Card::Small, list, EDF, &mut buffers.0, &mut buffers.1)
    };
    let refused = |number| Answer::Refused { number, task: 0 };
    assert_eq!(on_small(&[task(0, 1, 7, 7)], 0, 0), refused(9));
    assert_eq!(on_small(&LIST_B, 4, 3), refused(7));
    assert_eq!(on_small(&LIST_B, 5, 3), refused(8));
}

#[test]
fn other_answers_come_on_a_small_card_too() {
    let late = [task(0, 1, 1, 4), task(4, 1, 1, 4)];
    let missed = Answer::Missed {
        task: 1,
        instant: 5,
    };
    assert_eq!(checked(Card::Small, &late).0, missed);
    let too_much = [task(0, 1, 1, 1), task(0, 1, 2, 2)];
    let overloaded = Answer::Overloaded {
        load: 3,
        hyperperiod: 2,
    };
    assert_eq!(checked(Card::Small, &too_much).0, overloaded);
}

#[test]
fn check_is_check_card_for_a_wide_card() {
    let lists = [
        vec![task(0, 1, 7, 7)],
        vec![task(0, 0, 9, 9)],
        vec![task(0, 1, 1, 16_385)],
        vec![task(0, 1, 1, 1), task(0, 1, 2, 2)],
        LIST_B.to_vec(),
    ];
    for list in lists {
        let mut startup = vec![UNWRITTEN; ROOM];
        let mut cycle = vec![UNWRITTEN; ROOM];
        let answer = check(&list, EDF, &mut startup, &mut cycle);
        assert_eq!(checked(Card::Wide, &list), (answer, startup, cycle));
    }
}

#[test]
fn a_list_of_words_names_its_card_too() {
    let list = [0, 1, 7, 7];
    let called = |card: Option<u64>| {
        let (mut startup, mut cycle, mut row) = ([UNWRITTEN; 7], [UNWRITTEN; 7], [99; ROW]);
        let (startup, cycle) = (&mut startup, &mut cycle);
        let code = match card {
            None => check_words(EDF as u64, &list, startup, cycle, &mut row),
            Some(card) => check_words_card(card, EDF as u64, &list, startup, cycle, &mut row),
        };
        (code, row)
    };
    let feasible = (0, [0, 7, 1, 6, 6, 0, 0, 99]);
    assert_eq!(called(None), feasible);
    assert_eq!(called(Some(Card::Wide as u64)), feasible);
    let refused = (3, [9, 0, 99, 99, 99, 99, 99, 99]);
    assert_eq!(called(Some(Card::Small as u64)), refused);
}

#[test]
fn a_card_above_1_is_not_understood() {
    let words = LIST_B.map(|t| [t.offset, t.run, t.deadline, t.period]);
    for card in [2, 3, 256, 257, 1 << 32, u64::MAX] {
        let (mut startup, mut cycle, mut row) = ([UNWRITTEN; 5], [UNWRITTEN; 4], [7; ROW]);
        let list = words.as_flattened();
        let code = check_words_card(card, EDF as u64, list, &mut startup, &mut cycle, &mut row);
        assert_eq!(code, 4);
        let code = check_tasks_card(
            card,
            EDF as u64,
            &LIST_B,
            &mut startup,
            &mut cycle,
            &mut row,
        );
        assert_eq!(code, 4);
        assert_eq!((startup, cycle), ([UNWRITTEN; 5], [UNWRITTEN; 4]));
        assert_eq!(row, [7; ROW]);
    }
}
