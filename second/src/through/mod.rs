//! Texts handed to a command over pipes, its answers compared with our own.

mod answers;
mod command;
mod frame;

use crate::arguments::Arguments;
use crate::findings::{conclude, timed, Findings};
use crate::paper::MOST_TASKS;
use crate::random::Random;
use crate::text::files::{self, File};
use crate::text::inputs::Input;
use crate::text::reader;
use crate::text::report::{self, Output};
use crate::text::tally::Tally;
use crate::text::{self, tell, tell_input};
use answers::Answers;
use command::Started;
use std::process::ExitCode;

/// The lists of lists/ first, then the random texts, each with the command started anew.
pub fn run(command: &[String], arguments: &Arguments) -> ExitCode {
    let mut agreed = timed(|| run_files(command, arguments));
    // What is not asked for can't be missing.
    if arguments.texts > 0 {
        agreed &= timed(|| run_texts(command, arguments));
    }
    conclude(agreed)
}

/// Every list of lists/, and behind the last one a request without its last byte, which gets no answer.
fn run_files(command: &[String], arguments: &Arguments) -> bool {
    let mut files = match files::all() {
        Ok(files) => files,
        Err(why) => {
            println!("FAILED: lists/ is not read: {why}");
            return false;
        }
    };
    files.retain(|file| frame::fits(&file.text));
    let count = files.len();
    let mut random = Random::new(arguments.seed);
    let mut cut = frame::of(b"policy edf\ntask 0 1 1 1\n", &mut random);
    cut.pop();
    let requests = files
        .into_iter()
        .map(move |file| (frame::of(&file.text, &mut random), file));
    let (mut answered, mut failures) = (0, 0);
    let ended = Started::start(command, requests, cut).and_then(|started| {
        started.each(|file: File, answers| {
            let output = report::output(&file.text);
            let mut found = take(answers, &file.text, &output)
                .map_err(|why| format!("{}: {why}", file.name))?;
            if !file.allows(&output.bytes) {
                found.push("second prints another output than is expected".to_string());
            }
            for line in &found {
                println!("FAILED: {}: {line}", file.name);
            }
            answered += 1;
            failures += usize::from(!found.is_empty());
            Ok(())
        })
    });
    println!("the lists of lists/: {answered} of {count} compared, {failures} failures");
    all_answered(ended) && failures == 0 && count > 0
}

/// Random texts and their counts; true when all agree and nothing is missing.
fn run_texts(command: &[String], arguments: &Arguments) -> bool {
    let (seed, say) = (arguments.seed, arguments.say);
    let requests = (0..arguments.texts).filter_map(move |number| {
        let (input, mut random) = text::numbered(seed, number);
        frame::fits(&input.bytes).then(|| (frame::of(&input.bytes, &mut random), (number, input)))
    });
    let mut tally = Tally::up_to(frame::MOST_INPUT);
    let mut findings = Findings::of("text");
    let mut answered = 0;
    let ended = Started::start(command, requests, Vec::new()).and_then(|started| {
        started.each(|(number, input): (u64, Input), answers| {
            let output = report::output(&input.bytes);
            tally.add_text(&input, &output);
            let told = tell_input(&input, &output.bytes);
            if say {
                eprintln!("{told}");
            }
            let mut found = take(answers, &input.bytes, &output)
                .map_err(|why| format!("text {number}: {why}"))?;
            if !found.is_empty() {
                found.insert(0, told);
            }
            findings.note(number, &found);
            answered += 1;
            Ok(())
        })
    });
    println!(
        "seed {seed}, {} texts, {answered} compared (those of more than {} bytes are left out):",
        arguments.texts,
        frame::MOST_INPUT
    );
    // What a run that broke off would have had is not known.
    let whole = all_answered(ended);
    if whole {
        tally.counts.print();
    }
    let all_came = whole && tally.counts.all_came();
    findings.none() && all_came
}

/// Says why a run of the command broke off; true where it did not.
fn all_answered(ended: Result<(), String>) -> bool {
    if let Err(why) = &ended {
        println!("FAILED: {why}");
    }
    ended.is_ok()
}

/// The answer to a text, in its two parts, and what differs; claims of the paper that our own walk breaks included.
fn take(answers: &mut Answers, input: &[u8], output: &Output) -> Result<Vec<String>, String> {
    let mut found = output.broken();
    found.extend(difference("output", &output.bytes, &answers.next()?));
    found.extend(difference("text", rewritten(input), &answers.next()?));
    Ok(found)
}

/// A list has one text, so what is read from one and written again is the input; nothing where it is refused.
fn rewritten(input: &[u8]) -> &[u8] {
    match reader::read(input) {
        Ok(told) if told.tasks.len() <= MOST_TASKS => input,
        _ => b"",
    }
}

fn difference(name: &str, ours: &[u8], theirs: &[u8]) -> Vec<String> {
    if ours == theirs {
        return Vec::new();
    }
    let same = ours.iter().zip(theirs).take_while(|(a, b)| a == b);
    let place = same.count();
    vec![
        format!("{name}: {}", tell(theirs)),
        format!("first different {name} byte {place}"),
    ]
}
