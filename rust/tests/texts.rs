//! A list as text: read, answered and written.

mod lists;

use lists::LIST_B;
use sholakpite::{
    answer, write, write_card, write_words_card, Card, Policy, Task, LONGEST_INPUT, LONGEST_OUTPUT,
};

const TEXT_B: &[u8] = b"policy edf\ntask 0 2 4 4\ntask 1 1 2 4\n";

const SMALL_B: &[u8] = b"policy edf\ncard small\ntask 0 2 4 4\ntask 1 1 2 4\n";

const OUTPUT_B: &[u8] = b"feasible\nhyperperiod 4\nload 3\nidle 1 1\npreemptions 2 1\n\
    first 0 1 0 - 0\nagain 1 0 - 0\n";

/// The buffer, filled with 99 before, and how much of it was written.
fn answered(input: &[u8], room: usize) -> (Option<usize>, Vec<u8>) {
    let mut out = vec![99; room];
    (answer(input, &mut out), out)
}

fn written(policy: Policy, list: &[Task], room: usize) -> (Option<usize>, Vec<u8>) {
    let mut out = vec![99; room];
    (write(policy, list, &mut out), out)
}

fn written_for(card: Card, policy: Policy, list: &[Task], room: usize) -> (Option<usize>, Vec<u8>) {
    let mut out = vec![99; room];
    (write_card(card, policy, list, &mut out), out)
}

/// What a buffer with `more` bytes to spare has once the text is in it.
fn filled(text: &[u8], more: usize) -> (Option<usize>, Vec<u8>) {
    (Some(text.len()), [text, &vec![99; more]].concat())
}

fn unchanged(room: usize) -> (Option<usize>, Vec<u8>) {
    (None, vec![99; room])
}

#[test]
fn list_b_is_printed_as_the_paper_says() {
    let exact = OUTPUT_B.len();
    assert_eq!(answered(TEXT_B, exact), filled(OUTPUT_B, 0));
    let spare = LONGEST_OUTPUT - exact;
    assert_eq!(answered(TEXT_B, LONGEST_OUTPUT), filled(OUTPUT_B, spare));
    assert_eq!(answered(TEXT_B, exact - 1), unchanged(exact - 1));
    assert_eq!(answered(TEXT_B, 0), unchanged(0));
}

#[test]
fn list_b_is_written_and_read_again() {
    let edf = Policy::EarliestDeadlineFirst;
    let exact = TEXT_B.len();
    assert_eq!(written(edf, &LIST_B, exact), filled(TEXT_B, 0));
    assert_eq!(written(edf, &LIST_B, exact - 1), unchanged(exact - 1));
    let (length, out) = written(edf, &LIST_B, exact + 5);
    assert_eq!((length, out.clone()), filled(TEXT_B, 5));
    assert_eq!(
        answered(&out[..exact], 100),
        filled(OUTPUT_B, 100 - OUTPUT_B.len())
    );
}

#[test]
fn each_policy_is_written_by_its_name() {
    let names = [
        (Policy::ListOrder, "list"),
        (Policy::RateMonotonic, "rm"),
        (Policy::DeadlineMonotonic, "dm"),
        (Policy::EarliestDeadlineFirst, "edf"),
    ];
    for (policy, name) in names {
        let text = format!("policy {name}\n");
        assert_eq!(
            written(policy, &[], 20),
            filled(text.as_bytes(), 20 - text.len())
        );
        assert_eq!(answered(text.as_bytes(), 12), filled(b"refused 1 0\n", 0));
    }
}

#[test]
fn a_list_that_no_text_has_is_refused() {
    let with_period = |period| {
        [Task {
            period,
            ..LIST_B[0]
        }]
    };
    let rate = Policy::RateMonotonic;
    assert!(written(rate, &with_period(999_999), 600).0.is_some());
    assert_eq!(written(rate, &with_period(1_000_000), 600), unchanged(600));
    assert!(written(rate, &[LIST_B[0]; 16], 600).0.is_some());
    assert_eq!(written(rate, &[LIST_B[0]; 17], 600), unchanged(600));
}

#[test]
fn a_text_that_is_not_read_gets_its_line() {
    let unread = |input: &[u8], line: &[u8]| {
        assert_eq!(answered(input, line.len()), filled(line, 0));
    };
    unread(b"", b"unread 1\n");
    unread(b"policy edf\ntask 0 1 1 01\n", b"unread 2\n");
    unread(&[b'x'; LONGEST_INPUT], b"unread 1\n");
    unread(&[b'x'; LONGEST_INPUT + 1], b"unread 0\n");
}

#[test]
fn list_b_has_one_line_more_for_a_small_card() {
    let edf = Policy::EarliestDeadlineFirst;
    for (card, text) in [(Card::Wide, TEXT_B), (Card::Small, SMALL_B)] {
        let exact = text.len();
        assert_eq!(written_for(card, edf, &LIST_B, exact), filled(text, 0));
        assert_eq!(written_for(card, edf, &LIST_B, exact + 5), filled(text, 5));
        assert_eq!(
            written_for(card, edf, &LIST_B, exact - 1),
            unchanged(exact - 1)
        );
        assert_eq!(answered(text, OUTPUT_B.len()), filled(OUTPUT_B, 0));
    }
    let empty = b"policy rm\ncard small\n";
    assert_eq!(
        written_for(Card::Small, Policy::RateMonotonic, &[], 21),
        filled(empty, 0)
    );
    assert_eq!(answered(empty, 12), filled(b"refused 1 0\n", 0));
}

#[test]
fn the_writer_refuses_no_period_of_its_own() {
    let list = [Task {
        period: 7,
        ..LIST_B[0]
    }];
    let text = b"policy dm\ncard small\ntask 0 2 4 7\n";
    let dm = Policy::DeadlineMonotonic;
    assert_eq!(
        written_for(Card::Small, dm, &list, text.len()),
        filled(text, 0)
    );
    assert_eq!(answered(text, 12), filled(b"refused 9 0\n", 0));
    let seventeen = [LIST_B[0]; 17];
    assert_eq!(
        written_for(Card::Small, dm, &seventeen, 600),
        unchanged(600)
    );
}

#[test]
fn a_card_above_1_has_no_text() {
    for card in [2, 255, 256, 257, u64::MAX] {
        let mut out = [99; 40];
        assert_eq!(write_words_card(card, 3, &[0, 2, 4, 4], &mut out), 4);
        assert_eq!(out, [99; 40]);
    }
}

#[test]
fn a_card_line_is_read_in_its_place_alone() {
    let lines = |text: &[u8], line: &[u8]| {
        assert_eq!(answered(text, line.len()), filled(line, 0), "{text:?}");
    };
    lines(b"policy edf\ncard wide\ntask 0 1 1 1\n", b"unread 2\n");
    lines(b"policy edf\ncard  small\ntask 0 1 1 1\n", b"unread 2\n");
    lines(b"policy edf\ncard small \ntask 0 1 1 1\n", b"unread 2\n");
    lines(b"policy edf\ncard small", b"unread 2\n");
    lines(b"card small\npolicy edf\ntask 0 1 1 1\n", b"unread 1\n");
    lines(b"policy edf\ncard small\ncard small\n", b"unread 3\n");
    lines(b"policy edf\ntask 0 1 1 1\ncard small\n", b"unread 3\n");
    lines(b"policy edf\ncard small\ntask 0 1 1\n", b"unread 3\n");
    lines(
        b"policy edf\ncard small\ntask 0 1 1 16385\n",
        b"refused 2 0\n",
    );
    lines(
        b"policy edf\ncard small\ntask 0 1 1 4\ntask 0 0 9 9\n",
        b"refused 9 1\n",
    );
}
