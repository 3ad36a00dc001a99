//! A single list, tried by both programs and printed with its tables.

use super::arguments::Options;
use super::compare::{by_walk, describe, differences, Outcome};
use super::entries::by_library;
use super::lent::Buffers;
use crate::case::{self, Case};
use crate::random::Random;
use crate::verdict::judge;

/// True when both answer alike and the walk keeps the paper's claims.
pub fn try_one(words: &[u64], options: &Options, seed: u64) -> bool {
    let Some((&policy, list)) = words.split_first() else {
        println!("a list to try begins with its policy");
        return false;
    };
    let mut case = Case::exact(options.card, policy, list.to_vec());
    case.startup_len = options.startup_len.unwrap_or(case.startup_len);
    case.cycle_len = options.cycle_len.unwrap_or(case.cycle_len);
    case.row_len = options.row_len.unwrap_or(case.row_len);
    let verdict = judge(&case);
    let buffers = Buffers::for_case(&mut Random::new(seed), &case);
    let walk = by_walk(&verdict, buffers.clone());
    print("walk", &case, &walk);
    let mut reasons = verdict.broken;
    for (entry, library) in by_library(&case, &buffers) {
        print(&format!("library, {entry}"), &case, &library);
        let found = differences(&walk, &library);
        reasons.extend(found.iter().map(|reason| format!("{entry}: {reason}")));
    }
    for reason in &reasons {
        println!("DIFFERENT: {reason}");
    }
    if reasons.is_empty() {
        println!("they agree");
    }
    reasons.is_empty()
}

fn print(who: &str, case: &Case, outcome: &Outcome) {
    let (startup, cycle) = written(case, outcome);
    println!("{who}: {}", describe(outcome));
    println!("  startup {:?}", &outcome.buffers.startup.part()[..startup]);
    println!("  cycle   {:?}", &outcome.buffers.cycle.part()[..cycle]);
}

/// How many entries of each buffer an outcome says that it has written.
fn written(case: &Case, outcome: &Outcome) -> (usize, usize) {
    let Some((startup, cycle)) = case::needed(&case.list) else {
        return (0, 0);
    };
    let end = match (outcome.code, outcome.buffers.row.part()) {
        (0, _) => startup + cycle,
        (1, [_, instant, ..]) => (startup + cycle).min(*instant as usize),
        _ => 0,
    };
    let startup_end = end.min(startup);
    let startup_part = startup_end.min(case.startup_len);
    (startup_part, (end - startup_end).min(case.cycle_len))
}
