//! What is asked for on the command line.

use std::process::ExitCode;
use std::str::FromStr;

const USAGE: &str = "second [--seed N] [--lists N] [--texts N] [--logs N] [--say]\n\
    (a run in which an answer never came fails, so fewer than some 20,000 lists, texts or logs may; 0 leaves them out)\n\
    second [--seed N] [--texts N] [--say] --through COMMAND [ARGS ..]\n\
    second --answer < TEXT\n\
    second --try \"POLICY O C D T O C D T ...\" [--card N] [--startup N] [--cycle N] [--row N]\n\
    (card 0 is wide, 1 is small)";

pub struct Arguments {
    pub seed: u64,
    pub texts: u64,
    /// Print every list, text and log before it is handed over, to find one that ends the program.
    pub say: bool,
    pub asked: Asked,
}

/// An option and its value.
pub type Given = (String, String);

pub enum Asked {
    /// Print our own output for standard input, and do nothing else.
    Answer,
    /// Compare a command that answers texts over pipes.
    Through(Vec<String>),
    /// Compare the library; these options are for that alone.
    Library(Vec<Given>),
}

pub fn read(mut words: impl Iterator<Item = String>) -> Result<Arguments, String> {
    let (mut seed, mut texts, mut say) = (20_260_101, 20_000, false);
    let (mut asked, mut given) = (None, Vec::new());
    while let Some(name) = words.next() {
        if name == "--say" || name == "--answer" {
            say |= name == "--say";
            asked = asked.or((name == "--answer").then_some(Asked::Answer));
            continue;
        }
        let value = words.next().ok_or(format!("{name} needs a value"))?;
        match name.as_str() {
            "--seed" => seed = number(&value)?,
            "--texts" => texts = number(&value)?,
            "--through" => {
                let command = [value].into_iter().chain(&mut words).collect();
                asked = Some(Asked::Through(command));
            }
            _ => given.push((name, value)),
        }
    }
    let asked = match (asked, given.first()) {
        (Some(_), Some((name, _))) => return Err(format!("{name} is for the library alone")),
        (Some(asked), None) => asked,
        (None, _) => Asked::Library(given),
    };
    Ok(Arguments {
        seed,
        texts,
        say,
        asked,
    })
}

pub fn number<N: FromStr>(word: &str) -> Result<N, String> {
    let failed = |_| format!("{word:?} is not a number");
    word.parse().map_err(failed)
}

/// Says why, and how it is asked.
pub fn not_understood(why: &str) -> ExitCode {
    eprintln!("{why}\n{USAGE}");
    ExitCode::from(2)
}
