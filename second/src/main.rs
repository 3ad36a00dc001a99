//! An independent second program: a plain walk of the schedule, compared with the library.
//!
//! It is written from the rules alone, so that it shares no error with the library. The library is called through
//! its archive; a command that answers over pipes can be compared too.

mod arguments;
mod card;
mod case;
mod counts;
mod damage;
mod findings;
mod linked;
mod lists;
mod log;
mod paper;
mod random;
mod readoff;
mod text;
mod through;
mod verdict;
mod walk;

use arguments::Asked;
use std::io::{self, Read, Write};
use std::process::ExitCode;

fn main() -> ExitCode {
    let arguments = match arguments::read(std::env::args().skip(1)) {
        Ok(arguments) => arguments,
        Err(why) => return arguments::not_understood(&why),
    };
    match &arguments.asked {
        Asked::Answer => answer(),
        Asked::Through(command) => through::run(command, &arguments),
        Asked::Library(options) => linked::run(options, &arguments),
    }
}

/// Our own output for the text on standard input, and nothing else.
fn answer() -> ExitCode {
    let mut input = Vec::new();
    let answered = io::stdin()
        .read_to_end(&mut input)
        .and_then(|_| io::stdout().write_all(&text::report::output(&input).bytes));
    match answered {
        Ok(()) => ExitCode::SUCCESS,
        Err(why) => {
            eprintln!("{why}");
            ExitCode::FAILURE
        }
    }
}
