//! Lists as text: the library's answers and what it writes, compared with our own.

mod compare;
#[cfg(test)]
mod files;
mod pairs;
mod tally;
mod writer;
mod written;

use crate::arguments::Arguments;
use crate::findings::Findings;
use crate::text::{self, report, tell_input};
use pairs::Pair;

/// Random texts and random lists to write; true when all agree and nothing is missing.
pub fn run(arguments: &Arguments) -> bool {
    let mut tallies = (
        text::tally::Tally::up_to(usize::MAX),
        tally::Tally::of_pairs(),
    );
    let mut findings = Findings::of("text");
    for number in 0..arguments.texts {
        findings.note(number, &run_one(arguments, number, &mut tallies));
    }
    println!("seed {}, {} texts:", arguments.seed, arguments.texts);
    let (texts, pairs) = (tallies.0.counts, tallies.1.counts);
    texts.print();
    pairs.print();
    let all_came = [texts.all_came(), pairs.all_came()];
    findings.none() && all_came == [true; 2]
}

/// One text and one pair; what differs, with what it was found on.
fn run_one(
    arguments: &Arguments,
    number: u64,
    (texts, pairs): &mut (text::tally::Tally, tally::Tally),
) -> Vec<String> {
    let (input, mut random) = text::numbered(arguments.seed, number);
    let output = report::output(&input.bytes);
    texts.add_text(&input, &output);
    let told = tell_input(&input, &output.bytes);
    if arguments.say {
        eprintln!("{told}");
    }
    let mut found = compare::compare(&input.bytes, &output, &mut random);
    if !found.is_empty() {
        found.insert(0, told);
    }
    let pair = pairs::any(&mut random);
    let told = tell_pair(&pair);
    if arguments.say {
        eprintln!("{told}");
    }
    let of_pair = written::compare_pair(&pair, &mut random, pairs);
    if !of_pair.is_empty() {
        found.push(told);
        found.extend(of_pair);
    }
    found
}

fn tell_pair(pair: &Pair) -> String {
    let Pair { card, policy, list } = pair;
    format!("to write: card {card}, policy {policy}, list {list:?}")
}
