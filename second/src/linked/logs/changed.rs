//! Each byte of a small log set to each other value, and the log read.

use super::lent::{Buffers, Lengths};
use super::read;
use crate::counts::Counts;
use crate::findings::Findings;
use crate::log::made::plan_of;
use crate::log::reader::{find, Found};
use crate::log::writer::written;
use crate::log::Plan;
use crate::random::Random;

/// What a changed byte may give; a run without any of these fails.
const LINES: [&str; 5] = [
    "a byte changed: no plan",
    "a byte changed: refused 21",
    "a byte changed: the plan before the last",
    "a byte changed: the last plan as it was",
    "a byte changed: a plan nobody wrote",
];

/// As long as any part of such a log can be.
const ENOUGH: Lengths = Lengths {
    startup: 130,
    cycle: 130,
    row: 2,
};

/// A log of one plan and a log of two; true when all agree and nothing is missing.
pub fn run(seed: u64) -> bool {
    let mut random = Random::new(seed);
    let first = Plan {
        startup: vec![0, 1, 0, 255, 0],
        cycle: vec![1, 0, 255, 0],
    };
    let last = plan_of(&mut random, 60, 10);
    let mut counts = Counts::of(LINES.map(|line| (line.to_string(), true)));
    let mut findings = Findings::of("changed byte");
    for plans in [&[first.clone()][..], &[first, last]] {
        change_each(plans, &mut random, &mut counts, &mut findings);
    }
    counts.print();
    let all_came = counts.all_came();
    findings.none() && all_came
}

fn change_each(plans: &[Plan], random: &mut Random, counts: &mut Counts, findings: &mut Findings) {
    let mut log: Vec<u8> = plans.iter().flat_map(written).collect();
    let buffers = Buffers::of(random, ENOUGH);
    for at in 0..log.len() {
        let was = log[at];
        for byte in (0..=255).filter(|&byte| byte != was) {
            log[at] = byte;
            let found = find(&log);
            counts.note(line_of(&found, plans));
            findings.note(at as u64, &read::compare_in(&log, &found, &buffers));
        }
        log[at] = was;
    }
}

fn line_of(found: &Found, plans: &[Plan]) -> &'static str {
    let Found::Newest(plan) = found else {
        return match found {
            Found::NoPlan => LINES[0],
            _ => LINES[1],
        };
    };
    match plans.iter().rev().position(|known| known == plan) {
        Some(0) => LINES[3],
        Some(_) => LINES[2],
        None => LINES[4],
    }
}
