//! The library, linked and called through each of its entries, compared with our own.

mod arguments;
mod compare;
mod entries;
mod lent;
mod logs;
mod periods;
mod single;
mod small;
mod table;
mod tally;
mod texts;

use crate::arguments::{not_understood, Arguments, Given};
use crate::findings::{conclude, exit_code, timed, Findings};
use crate::random::Random;
use crate::{damage, verdict};
use arguments::Options;
use std::process::ExitCode;
use tally::Tally;

pub fn run(options: &[Given], arguments: &Arguments) -> ExitCode {
    let options = match arguments::read(options) {
        Ok(options) => options,
        Err(why) => return not_understood(&why),
    };
    match &options.tried {
        Some(words) => exit_code(single::try_one(words, &options, arguments.seed)),
        None => conclude(run_all(&options, arguments)),
    }
}

/// The table and each period first, then the random lists, texts and logs.
fn run_all(options: &Options, arguments: &Arguments) -> bool {
    let mut agreed = hold_table(arguments.seed);
    agreed &= periods::hold_all(&mut Random::new(arguments.seed));
    // What is not asked for can't be missing.
    if options.lists > 0 {
        agreed &= timed(|| run_lists(options.lists, arguments));
    }
    if arguments.texts > 0 {
        agreed &= timed(|| texts::run(arguments));
    }
    if options.logs > 0 {
        agreed &= timed(|| logs::run(options.logs, arguments));
    }
    agreed
}

fn hold_table(seed: u64) -> bool {
    let failures = table::hold_all(&mut Random::new(seed));
    for failure in &failures {
        println!("FAILED: the table's list {failure}");
    }
    println!(
        "the table worked out by hand: {} lists and policies, {} failures",
        table::size(),
        failures.len()
    );
    failures.is_empty()
}

/// Random lists and their counts; true when all agree and nothing is missing.
fn run_lists(lists: u64, arguments: &Arguments) -> bool {
    let mut tally = Tally::of_lists();
    let mut findings = Findings::of("list");
    for number in 0..lists {
        let mut random = Random::for_list(arguments.seed, number);
        let case = damage::any_case(&mut random);
        if arguments.say {
            eprintln!("{}", compare::try_again(&case));
        }
        let verdict = verdict::judge(&case);
        tally.add(&case, &verdict);
        findings.note(number, &compare::compare(&case, &verdict, &mut random));
    }
    println!("seed {}, {lists} lists:", arguments.seed);
    tally.print();
    let all_came = tally.counts.all_came();
    findings.none() && all_came
}
