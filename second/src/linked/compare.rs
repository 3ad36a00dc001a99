//! Both programs on the same case and the same buffers, compared word by word.

use super::entries::by_library;
use super::lent::{Buffers, Lent};
use crate::case::Case;
use crate::paper::Answer;
use crate::random::Random;
use crate::verdict::Verdict;
use std::fmt::Display;

/// A code and all that was lent, as the call left it.
pub struct Outcome {
    pub code: u64,
    pub buffers: Buffers,
}

/// What the walk's verdict makes of the buffers; all that it does not name stays.
pub fn by_walk(verdict: &Verdict, mut buffers: Buffers) -> Outcome {
    let (code, row) = code_and_row(verdict.answer);
    buffers.row.part_mut()[..row.len()].copy_from_slice(&row);
    buffers.startup.part_mut()[..verdict.startup.len()].copy_from_slice(&verdict.startup);
    buffers.cycle.part_mut()[..verdict.cycle.len()].copy_from_slice(&verdict.cycle);
    Outcome { code, buffers }
}

/// An answer's code and the words of the row that it names, in the paper's order.
fn code_and_row(answer: Answer) -> (u64, Vec<u64>) {
    match answer {
        Answer::Feasible {
            largest_offset,
            hyperperiod,
            load,
            idle,
            preemptions,
        } => {
            let values = [largest_offset, hyperperiod, load];
            (0, [&values[..], &idle, &preemptions].concat())
        }
        Answer::Missed { task, instant } => (1, vec![task, instant]),
        Answer::Overloaded { load, hyperperiod } => (2, vec![load, hyperperiod]),
        Answer::Refused { number, task } => (3, vec![number, task]),
        Answer::NotAsked => (4, vec![]),
    }
}

/// Runs one case through the walk and every entry; what differs, with what it was found on.
pub fn compare(case: &Case, verdict: &Verdict, random: &mut Random) -> Vec<String> {
    let buffers = Buffers::for_case(random, case);
    let walk = by_walk(verdict, buffers.clone());
    let mut lines = verdict.broken.clone();
    for (entry, library) in by_library(case, &buffers) {
        let found = differences(&walk, &library);
        if !found.is_empty() {
            lines.push(format!("library, {entry}: {}", describe(&library)));
            lines.extend(found);
        }
    }
    if !lines.is_empty() {
        let walk = format!("walk: {}", describe(&walk));
        lines.splice(0..0, [try_again(case), walk]);
    }
    lines
}

/// The words as they are typed to try a case again.
pub fn try_again(case: &Case) -> String {
    let words: Vec<String> = case.list.iter().map(u64::to_string).collect();
    format!(
        "--try \"{} {}\" --card {} --startup {} --cycle {} --row {}",
        case.policy,
        words.join(" "),
        case.card,
        case.startup_len,
        case.cycle_len,
        case.row_len
    )
}

/// The code, and the first place of each buffer that differs, unchanged places included.
pub fn differences(walk: &Outcome, library: &Outcome) -> Vec<String> {
    let codes = (walk.code, library.code);
    let code = format!("codes: walk {}, library {}", codes.0, codes.1);
    let code = Some(code).filter(|_| codes.0 != codes.1);
    let (a, b) = (&walk.buffers, &library.buffers);
    let places = [
        code,
        place("walk", "row word", &a.row, &b.row),
        place("walk", "startup entry", &a.startup, &b.startup),
        place("walk", "cycle entry", &a.cycle, &b.cycle),
        place("walk", "list word", &a.list, &b.list),
    ];
    places.into_iter().flatten().collect()
}

/// The first place of a buffer that differs, outside the lent part too; `ours` is what our side is called.
pub fn place<W: Copy + PartialEq + Display>(
    ours: &str,
    name: &str,
    a: &Lent<W>,
    b: &Lent<W>,
) -> Option<String> {
    let (entry, of_ours, of_library) = a.first_difference(b)?;
    let inside = (0..a.len as i64).contains(&entry);
    let outside = if inside {
        ""
    } else {
        ", outside the lent part"
    };
    Some(format!(
        "first different {name} {entry}{outside}: {ours} {of_ours}, library {of_library}"
    ))
}

/// An outcome in words, with the row's values as they stand.
pub fn describe(outcome: &Outcome) -> String {
    let row = outcome.buffers.row.part();
    match (outcome.code, row) {
        (0, [m, h, l, idle, idle_cycle, preempted, preempted_cycle, ..]) => format!(
            "feasible, M {m}, H {h}, L {l}, idle {idle} and {idle_cycle}, \
             preemptions {preempted} and {preempted_cycle}"
        ),
        (1, [task, instant, ..]) => format!("missed, task {task} at {instant}"),
        (2, [load, hyperperiod, ..]) => format!("overloaded, L {load}, H {hyperperiod}"),
        (3, [number, task, ..]) => format!("refused {number}, task {task}"),
        (4, _) => "code 4, nothing written".to_string(),
        (code, _) => format!("code {code}, which means nothing"),
    }
}
