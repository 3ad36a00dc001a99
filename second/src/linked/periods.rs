//! Every period, alone in a list for a small card, under each policy.

use super::compare::compare;
use crate::card::{Card, LONGEST_SMALL_PERIOD, SMALL_PERIODS};
use crate::case::Case;
use crate::findings::Findings;
use crate::paper::{Answer, MOST_PERIOD, POLICY_COUNT};
use crate::random::Random;
use crate::verdict::judge;

/// From 0 to the first that is above its limit; true when the library agrees on all, and the card's periods passed.
pub fn hold_all(random: &mut Random) -> bool {
    let mut findings = Findings::of("period");
    let mut feasible = 0;
    for policy in 0..POLICY_COUNT {
        for period in 0..=MOST_PERIOD + 1 {
            let case = alone(policy, period);
            let verdict = judge(&case);
            feasible += usize::from(matches!(verdict.answer, Answer::Feasible { .. }));
            findings.note(period, &compare(&case, &verdict, random));
        }
    }
    println!(
        "periods 0 to {}, each alone on a small card under {POLICY_COUNT} policies: {feasible} are feasible",
        MOST_PERIOD + 1
    );
    let passed = feasible == POLICY_COUNT as usize * SMALL_PERIODS.len();
    if !passed {
        println!("FAILED: the card's periods are not those that are feasible");
    }
    findings.none() && passed
}

/// The buffers have room for every list of a small card without offsets.
fn alone(policy: u64, period: u64) -> Case {
    let room = LONGEST_SMALL_PERIOD as usize;
    Case {
        startup_len: room,
        cycle_len: room,
        ..Case::exact(Card::Small.number(), policy, vec![0, 1, 1, period])
    }
}

#[cfg(test)]
mod tests {
    use super::*;

    #[test]
    fn the_library_agrees_on_every_period() {
        assert!(hold_all(&mut Random::new(1)));
    }
}
