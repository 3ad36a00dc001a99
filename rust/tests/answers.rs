//! Each kind of answer once, from document 01's lists.

mod lists;

use lists::{task, LIST_B, PLAN_B};
use sholakpite::{check, Answer, Policy, Task, IDLE};

/// The answer, and both buffers, filled with 99 before.
fn checked(
    list: &[Task],
    policy: Policy,
    startup: usize,
    cycle: usize,
) -> (Answer, Vec<u8>, Vec<u8>) {
    let mut startup = vec![99; startup];
    let mut cycle = vec![99; cycle];
    let answer = check(list, policy, &mut startup, &mut cycle);
    (answer, startup, cycle)
}

#[test]
fn list_b_is_feasible() {
    let startup = vec![0, 1, 0, IDLE, 0, 99];
    let cycle = vec![1, 0, IDLE, 0, 99];
    assert_eq!(
        checked(&LIST_B, Policy::EarliestDeadlineFirst, 6, 5),
        (Answer::Feasible(PLAN_B), startup, cycle)
    );
}

#[test]
fn list_g_misses() {
    let list = [task(0, 1, 1, 4), task(4, 1, 1, 4)];
    let missed = Answer::Missed {
        task: 1,
        instant: 5,
    };
    let startup = vec![0, IDLE, IDLE, IDLE, 0, 99, 99, 99];
    assert_eq!(
        checked(&list, Policy::EarliestDeadlineFirst, 8, 4),
        (missed, startup, vec![99; 4])
    );
}

#[test]
fn list_k_misses_under_each_policy_where_the_paper_says() {
    let list = [task(0, 4, 7, 7), task(0, 2, 5, 5)];
    let missed = |task, instant| Answer::Missed { task, instant };
    assert_eq!(checked(&list, Policy::ListOrder, 35, 35).0, missed(1, 5));
    assert_eq!(
        checked(&list, Policy::RateMonotonic, 35, 35).0,
        missed(0, 7)
    );
}

#[test]
fn list_h_is_overloaded() {
    let list = [task(0, 1, 1, 1), task(0, 1, 2, 2)];
    let overloaded = Answer::Overloaded {
        load: 3,
        hyperperiod: 2,
    };
    assert_eq!(
        checked(&list, Policy::DeadlineMonotonic, 2, 2),
        (overloaded, vec![99; 2], vec![99; 2])
    );
}

#[test]
fn lists_of_any_length_get_an_answer() {
    let refused = |number, task| Answer::Refused { number, task };
    for length in [0, 17, 1000] {
        let list = vec![task(0, 1, 1, 1); length];
        assert_eq!(
            checked(&list, Policy::ListOrder, 1, 1),
            (refused(1, 0), vec![99], vec![99])
        );
    }
    let sixteen = [task(0, 1, 16, 16); 16];
    assert!(matches!(
        checked(&sixteen, Policy::ListOrder, 16, 16).0,
        Answer::Feasible(_)
    ));
    let second_is_bad = [task(0, 1, 1, 1), task(0, 0, 4, 4)];
    assert_eq!(
        checked(&second_is_bad, Policy::ListOrder, 4, 4).0,
        refused(3, 1)
    );
}
