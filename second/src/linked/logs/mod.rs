//! A log of plans: the library's writer and reader compared with our own.

mod append;
mod changed;
mod cuts;
mod history;
mod lent;
mod read;
mod tally;

use crate::arguments::Arguments;
use crate::findings::Findings;
use crate::random::Random;
use tally::Tally;

/// Random logs, then power cuts, then changed bytes; true when all agree and nothing is missing.
pub fn run(logs: u64, arguments: &Arguments) -> bool {
    let of_logs = run_logs(logs, arguments);
    let after_cuts = cuts::run(arguments.seed);
    let after_changes = changed::run(arguments.seed);
    of_logs && after_cuts && after_changes
}

fn run_logs(logs: u64, arguments: &Arguments) -> bool {
    let mut tally = Tally::of_logs();
    let mut findings = Findings::of("log");
    for number in 0..logs {
        // The lists and the texts of a run have their own sequences.
        let mut random = Random::for_list(arguments.seed.reverse_bits(), number);
        let lines = history::run(&mut random, arguments.say, &mut tally);
        findings.note(number, &lines);
    }
    println!("seed {}, {logs} logs:", arguments.seed);
    tally.counts.print();
    let all_came = tally.counts.all_came();
    findings.none() && all_came
}
