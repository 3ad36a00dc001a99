//! Lists and borders worked out by hand, to which both programs are held.

mod paper;
mod small;

use super::compare::{by_walk, describe, differences, Outcome};
use super::entries::by_library;
use super::lent::{Buffers, Lent};
use crate::case::Case;
use crate::random::Random;
use crate::verdict::judge;
use std::fmt::Display;

/// A list to try, with what was worked out of it; None where that says nothing.
struct Tried {
    name: &'static str,
    card: u64,
    policies: &'static [u64],
    tasks: &'static [[u64; 4]],
    startup_len: usize,
    cycle_len: usize,
    code: u64,
    row: &'static [Option<u64>],
    startup: Option<&'static [u8]>,
    cycle: Option<&'static [u8]>,
}

const WIDE: u64 = 0;
const SMALL: u64 = 1;
const ANY: &[u64] = &[0, 1, 2, 3];
const EDF: &[u64] = &[3];
const NONE: Option<u64> = None;
const I: u8 = 255;
const UNCHANGED: Option<&[u8]> = Some(&[]);
const LIST_B: &[[u64; 4]] = &[[0, 2, 4, 4], [1, 1, 2, 4]];

const fn feasible(
    name: &'static str,
    policies: &'static [u64],
    tasks: &'static [[u64; 4]],
    lens: (usize, usize),
    row: &'static [Option<u64>; 7],
    tables: (Option<&'static [u8]>, Option<&'static [u8]>),
) -> Tried {
    Tried {
        name,
        card: WIDE,
        policies,
        tasks,
        startup_len: lens.0,
        cycle_len: lens.1,
        code: 0,
        row,
        startup: tables.0,
        cycle: tables.1,
    }
}

/// A list that leaves the cycle unchanged: every miss of the paper falls before M + H.
const fn other(
    name: &'static str,
    policies: &'static [u64],
    tasks: &'static [[u64; 4]],
    lens: (usize, usize),
    answer: (u64, &'static [Option<u64>]),
    startup: Option<&'static [u8]>,
) -> Tried {
    Tried {
        name,
        card: WIDE,
        policies,
        tasks,
        startup_len: lens.0,
        cycle_len: lens.1,
        code: answer.0,
        row: answer.1,
        startup,
        cycle: UNCHANGED,
    }
}

const fn refused(
    name: &'static str,
    tasks: &'static [[u64; 4]],
    lens: (usize, usize),
    row: &'static [Option<u64>; 2],
) -> Tried {
    other(name, ANY, tasks, lens, (3, row), UNCHANGED)
}

/// The same list for another card.
const fn on(card: u64, tried: Tried) -> Tried {
    Tried { card, ..tried }
}

/// The paper's lists, and those for a small card.
fn all() -> impl Iterator<Item = &'static Tried> {
    paper::TABLE.iter().chain(small::TABLE)
}

/// Holds the walk and the library to all of them; says what is not held.
pub fn hold_all(random: &mut Random) -> Vec<String> {
    let mut failures = Vec::new();
    for tried in all() {
        for &policy in tried.policies {
            let name = format!("{}, card {}, policy {policy}", tried.name, tried.card);
            let found = hold(tried, policy, random);
            failures.extend(found.iter().map(|failure| format!("{name}, {failure}")));
        }
    }
    failures
}

/// One list under one policy: each program held to the paper, and the library to the walk where the paper is silent.
fn hold(tried: &Tried, policy: u64, random: &mut Random) -> Vec<String> {
    let case = Case {
        startup_len: tried.startup_len,
        cycle_len: tried.cycle_len,
        ..Case::exact(tried.card, policy, tried.tasks.concat())
    };
    let before = Buffers::for_case(random, &case);
    let verdict = judge(&case);
    let walk = by_walk(&verdict, before.clone());
    let mut failures = verdict.broken;
    for (who, outcome) in by_library(&case, &before) {
        failures.extend(held(tried, &before, who, &outcome));
        failures.extend(differences(&walk, &outcome));
    }
    failures.extend(held(tried, &before, "walk", &walk));
    failures
}

pub fn size() -> usize {
    all().map(|tried| tried.policies.len()).sum()
}

/// What an outcome has that the paper says otherwise.
fn held(tried: &Tried, before: &Buffers, who: &str, after: &Outcome) -> Option<String> {
    let failure = other_than_the_paper(tried, before, after)?;
    Some(format!("{who}: {failure}; {}", describe(after)))
}

fn other_than_the_paper(tried: &Tried, before: &Buffers, after: &Outcome) -> Option<String> {
    if after.code != tried.code {
        return Some(format!("code {} for {}", after.code, tried.code));
    }
    let row = tried.row;
    let startup = entries(tried.startup, tried.startup_len);
    let cycle = entries(tried.cycle, tried.cycle_len);
    let after = &after.buffers;
    part_held("row", row, &before.row, &after.row)
        .or_else(|| part_held("startup", &startup, &before.startup, &after.startup))
        .or_else(|| part_held("cycle", &cycle, &before.cycle, &after.cycle))
        .or_else(|| part_held("list", &[], &before.list, &after.list))
}

/// The named entries; where the paper is silent any entry of the buffer may be written.
fn entries(named: Option<&[u8]>, len: usize) -> Vec<Option<u8>> {
    match named {
        Some(entries) => entries.iter().copied().map(Some).collect(),
        None => vec![None; len],
    }
}

/// Named places hold their values; places behind them and outside are unchanged.
fn part_held<W: Copy + PartialEq + Display>(
    name: &str,
    named: &[Option<W>],
    before: &Lent<W>,
    after: &Lent<W>,
) -> Option<String> {
    for place in 0..before.all.len() {
        let entry = place.checked_sub(before.start);
        let wanted = match entry.and_then(|entry| named.get(entry)) {
            Some(&None) => continue,
            Some(&Some(value)) => value,
            None => before.all[place],
        };
        if after.all[place] != wanted {
            let entry = place as i64 - before.start as i64;
            return Some(format!(
                "{name} {entry} is {}, not {wanted}",
                after.all[place]
            ));
        }
    }
    None
}

#[cfg(test)]
mod tests {
    use super::*;

    #[test]
    fn both_programs_hold_to_the_paper() {
        assert_eq!(hold_all(&mut Random::new(1)), Vec::<String>::new());
    }
}
