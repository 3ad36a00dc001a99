//! Lists as text: texts of every kind, a reader and a report of our own.

mod bytes;
mod cards;
mod fields;
pub mod files;
pub mod inputs;
pub mod listed;
pub mod reader;
pub mod report;
mod sizes;
mod small;
pub mod tally;
pub mod writer;

use crate::random::Random;
use inputs::Input;

/// A text of a run by its number, and the generator that goes on from it.
pub fn numbered(seed: u64, number: u64) -> (Input, Random) {
    // The lists of a run have their own sequence.
    let mut random = Random::for_list(!seed, number);
    (inputs::any(&mut random), random)
}

/// How a text was made, and both its ends.
pub fn tell_input(input: &Input, output: &[u8]) -> String {
    let (text, output) = (tell(&input.bytes), tell(output));
    format!("{}: {text}, second: {output}", input.made)
}

/// The front of some bytes, as they are typed.
pub fn tell(bytes: &[u8]) -> String {
    let front = &bytes[..bytes.len().min(500)];
    let more = if front.len() < bytes.len() { "..." } else { "" };
    format!("\"{}\"{more} ({} bytes)", front.escape_ascii(), bytes.len())
}
