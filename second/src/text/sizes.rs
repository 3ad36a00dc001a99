//! Texts of many bytes or many lines, with or without a line that can't be read.

use super::bytes::{lines, Spoil};
use super::reader::{POLICIES, SMALL_LINE};
use crate::random::Random;

/// The shortest and the longest line of a task.
const SHORTEST: usize = "task 0 0 0 0\n".len();
const LONGEST: usize = "task 999999 999999 999999 999999\n".len();

/// Lengths of a text at its limit; `None` is a length far above it.
pub const LENGTHS: [Option<usize>; 5] = [Some(4_095), Some(4_096), Some(4_097), Some(4_098), None];

/// Lengths far above the limit, the shortest first; some look right once they are cut to 16 bits.
const FAR: [usize; 5] = [5_000, 8_192, 65_536, 65_600, 69_632];

/// What is wrong with a text, besides its length.
pub const FLAWS: [(&str, Spoil); 5] = [
    ("every line good", |_, _| {}),
    ("a bad first line", |_, text| text[0] = b'P'),
    ("a bad line", bad_line),
    ("a bad last line", |_, text| {
        let last = text.len() - 2;
        text[last] = b' ';
    }),
    ("no last newline", |_, text| {
        let last = text.len() - 1;
        text[last] = b'0';
    }),
];

/// How many tasks; counts from 256 on look right once they are cut to 8 bits.
pub const COUNTS: [(&str, u64, u64); 4] = [
    ("16 tasks", 16, 16),
    ("17 tasks", 17, 17),
    ("18 to 60 tasks", 18, 60),
    ("256 to 272 tasks", 256, 272),
];

pub fn length_name(length: Option<usize>) -> String {
    match length {
        Some(length) => format!("{length} bytes"),
        None => "far too many bytes".to_string(),
    }
}

/// The shortest text of this length.
pub fn shortest(length: Option<usize>) -> usize {
    length.unwrap_or(FAR[0])
}

/// A text of this length, to the byte.
pub fn of_length(random: &mut Random, length: Option<usize>) -> Vec<u8> {
    let length = length.unwrap_or_else(|| random.pick(&FAR));
    let mut text = front(random);
    let longest = random.pick(&[SHORTEST, LONGEST, LONGEST]);
    loop {
        let left = length - text.len();
        if left <= LONGEST {
            text.extend(task(random, left));
            return text;
        }
        // What is left has to be a line as well.
        let most = longest.min(left - SHORTEST);
        let line = random.between(SHORTEST as u64, most as u64);
        text.extend(task(random, line as usize));
    }
}

/// A text of this many tasks, which fits into the limit.
pub fn of_count(random: &mut Random, least: u64, most: u64) -> Vec<u8> {
    let mut text = front(random);
    for _ in 0..random.between(least, most) {
        text.extend(task(random, SHORTEST));
    }
    text
}

/// The lines in front of the tasks.
fn front(random: &mut Random) -> Vec<u8> {
    let (policy, card) = (random.pick(&POLICIES), random.pick(&["", SMALL_LINE]));
    format!("policy {policy}\n{card}").into_bytes()
}

/// The line of a task with any numbers, of this length.
fn task(random: &mut Random, length: usize) -> Vec<u8> {
    let mut digits = [1; 4];
    for _ in SHORTEST..length {
        let short: Vec<usize> = (0..4).filter(|&at| digits[at] < 6).collect();
        digits[random.pick(&short)] += 1;
    }
    let number = |digits: u32| {
        let least = if digits == 1 {
            0
        } else {
            10_u64.pow(digits - 1)
        };
        random.between(least, 10_u64.pow(digits) - 1).to_string()
    };
    format!("task {}\n", digits.map(number).join(" ")).into_bytes()
}

fn bad_line(random: &mut Random, text: &mut Vec<u8>) {
    let mut lines = lines(text);
    let at = random.index(lines.len());
    // One byte for another, so that the length stays.
    lines[at][4] = b'_';
    *text = lines.concat();
}

#[cfg(test)]
mod tests {
    use super::*;
    use crate::text::reader::read;

    #[test]
    fn texts_have_their_lengths_and_only_the_good_are_read() {
        let mut random = Random::new(5);
        for length in LENGTHS {
            for (flaw, spoil) in FLAWS {
                let mut text = of_length(&mut random, length);
                spoil(&mut random, &mut text);
                if let Some(length) = length {
                    assert_eq!(text.len(), length);
                }
                let good = flaw == "every line good" && text.len() <= 4_096;
                assert_eq!(read(&text).is_ok(), good, "{length:?}, {flaw}");
            }
        }
    }
}
