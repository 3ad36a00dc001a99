//! A text damaged in one thing that it says, so that one rule of reading is broken.

use super::bytes::{lines, Spoil};
use super::reader::POLICIES;
use crate::random::Random;

/// Each damage, by its name. The first leaves a text that is read; none of the others does.
#[rustfmt::skip]
pub const SPOILS: [(&str, Spoil); 27] = [
    ("a number of 999999", |r, text| number(r, text, |_, n| *n = "999999".into())),
    ("a number of 1000000", |r, text| number(r, text, |_, n| *n = "1000000".into())),
    ("a number of seven digits", |r, text| number(r, text, seven_digits)),
    ("a number past 32 bits", |r, text| number(r, text, |r, n| wrapping(r, n, 1 << 32))),
    ("a number past 64 bits", |r, text| number(r, text, |r, n| wrapping(r, n, 1 << 64))),
    ("a number of 30 digits", |r, text| number(r, text, |r, n| *n = digits(r, 30))),
    ("a number of 1,000 digits", |r, text| number(r, text, |r, n| *n = digits(r, 1_000))),
    ("a leading zero", |r, text| number(r, text, |_, n| n.insert(0, '0'))),
    ("a number of 00", |r, text| number(r, text, |_, n| *n = "00".into())),
    ("a sign", |r, text| number(r, text, |r, n| n.insert(0, r.pick(&['+', '-'])))),
    ("no number", |r, text| number(r, text, |_, n| n.clear())),
    ("three numbers", |r, text| task(r, text, |_, fields| { fields.pop(); })),
    ("five numbers", |r, text| task(r, text, |r, fields| fields.push(digits(r, 1)))),
    ("another word for task", |r, text| task(r, text, |r, fields| fields[0] = r.pick(&WORDS).into())),
    ("two spaces", |r, text| space(r, text, b"  ")),
    ("a tab", |r, text| space(r, text, b"\t")),
    ("a leading space", |r, text| beside(r, text, |_| 0, b' ')),
    ("a trailing space", |r, text| beside(r, text, |line| line.len() - 1, b' ')),
    ("a carriage return", |r, text| beside(r, text, |line| line.len() - 1, b'\r')),
    ("a carriage return in every line", |_, text| carriage_returns(text)),
    ("a line that begins with a byte of 0", |r, text| beside(r, text, |_| 0, 0)),
    ("a high bit", |r, text| high_bit(r, text)),
    ("a blank line", |r, text| insert(r, text, 0, "\n")),
    ("a second policy line", second_policy),
    ("a policy in upper case", |_, text| upper_case(text)),
    ("another policy", |r, text| first(text, &format!("policy {}\n", r.pick(&OTHERS)))),
    ("no policy line", |r, text| first(text, r.pick(&["", "\n", "policy\n", "policyrm\n", "Policy rm\n"]))),
];

const WORDS: [&str; 8] = ["Task", "TASK", "tas", "tasks", "", "job", "task:", "policy"];

const OTHERS: [&str; 12] = [
    "Edf", "List", "ed", "edff", "lis", "r", "mr", "fifo", "3", "", "edf rm", "rm0",
];

/// Changes the fields of one task line.
fn task(
    random: &mut Random,
    text: &mut Vec<u8>,
    change: impl FnOnce(&mut Random, &mut Vec<String>),
) {
    let mut lines = lines(text);
    let is_task = |&at: &usize| lines[at].starts_with(b"task ");
    let tasks: Vec<usize> = (0..lines.len()).filter(is_task).collect();
    // An earlier damage may have left no task.
    if tasks.is_empty() {
        return;
    }
    let line = &mut lines[random.pick(&tasks)];
    let words = String::from_utf8_lossy(line);
    let words = words.trim_end_matches('\n');
    let mut fields: Vec<String> = words.split(' ').map(String::from).collect();
    change(random, &mut fields);
    *line = (fields.join(" ") + "\n").into_bytes();
    *text = lines.concat();
}

/// Changes one number of one task line.
fn number(random: &mut Random, text: &mut Vec<u8>, change: fn(&mut Random, &mut String)) {
    task(random, text, |random, fields| {
        let at = 1 + random.index(fields.len() - 1);
        change(random, &mut fields[at]);
    });
}

/// One digit too many, before or behind a number that could be read.
fn seven_digits(random: &mut Random, number: &mut String) {
    let more = random.between(1, 9);
    *number = if random.once_in(2) {
        format!("{more}{number:0>6}")
    } else {
        format!("{more}{number:0<6}")
    };
}

/// A number that looks right once it is cut.
fn wrapping(random: &mut Random, number: &mut String, cut: u128) {
    let value: u128 = number.parse().unwrap_or(0);
    *number = (value + cut * u128::from(random.between(1, 3))).to_string();
}

fn digits(random: &mut Random, count: usize) -> String {
    let first = random.between(1, 9);
    let more = (1..count).map(|_| random.below(10).to_string());
    first.to_string() + &more.collect::<String>()
}

/// Puts other bytes in the place of one space.
fn space(random: &mut Random, text: &mut Vec<u8>, bytes: &[u8]) {
    let spaces: Vec<usize> = (0..text.len()).filter(|&at| text[at] == b' ').collect();
    if !spaces.is_empty() {
        let at = random.pick(&spaces);
        text.splice(at..=at, bytes.iter().copied());
    }
}

/// Puts a byte into one line, at a place that goes by the line.
fn beside(random: &mut Random, text: &mut Vec<u8>, place: fn(&[u8]) -> usize, byte: u8) {
    let mut lines = lines(text);
    let at = random.index(lines.len());
    let place = place(&lines[at]);
    lines[at].insert(place, byte);
    *text = lines.concat();
}

fn high_bit(random: &mut Random, text: &mut [u8]) {
    let at = random.index(text.len());
    text[at] |= 1 << 7;
}

fn carriage_returns(text: &mut Vec<u8>) {
    let lines = text.split(|&byte| byte == b'\n');
    *text = lines.collect::<Vec<_>>().join(&b"\r\n"[..]);
}

/// Puts a line before any line from `first` on, or at the end.
pub fn insert(random: &mut Random, text: &mut Vec<u8>, first: usize, line: &str) {
    let mut lines = lines(text);
    let at = random.between(first.min(lines.len()) as u64, lines.len() as u64);
    lines.insert(at as usize, line.as_bytes().to_vec());
    *text = lines.concat();
}

fn second_policy(random: &mut Random, text: &mut Vec<u8>) {
    let line = format!("policy {}\n", random.pick(&POLICIES));
    insert(random, text, 1, &line);
}

/// The first two letters of the policy are enough.
fn upper_case(text: &mut [u8]) {
    let name = text.iter_mut().skip("policy ".len()).take(2);
    name.for_each(|byte| byte.make_ascii_uppercase());
}

/// Puts another first line in the place of the one there is.
pub fn first(text: &mut Vec<u8>, line: &str) {
    let mut lines = lines(text);
    lines[0] = line.as_bytes().to_vec();
    *text = lines.concat();
}

#[cfg(test)]
mod tests {
    use super::*;
    use crate::text::listed;
    use crate::text::reader::read;

    #[test]
    fn all_but_the_first_leave_a_text_that_is_not_read() {
        let mut random = Random::new(3);
        for (at, (name, spoil)) in SPOILS.iter().enumerate() {
            for _ in 0..200 {
                let mut text = listed::valid(&mut random);
                assert!(read(&text).is_ok());
                spoil(&mut random, &mut text);
                assert_eq!(read(&text).is_ok(), at == 0, "{name}: {text:?}");
            }
        }
    }
}
