//! A text damaged in the line of its card, or in where that stands.

use super::bytes::{lines, Spoil};
use super::fields::{first, insert};
use super::reader::SMALL_LINE;

/// Each damage, by its name. None leaves a text that is read.
#[rustfmt::skip]
pub const SPOILS: [(&str, Spoil); 8] = [
    ("another card", |r, text| second(text, r.pick(&OTHERS))),
    ("a card line in front of the policy", |_, text| text.splice(..0, SMALL_LINE.bytes()).for_each(drop)),
    ("a card line in the place of the policy", |_, text| first(text, SMALL_LINE)),
    ("a second card line", |r, text| { second(text, SMALL_LINE); insert(r, text, 1, SMALL_LINE) }),
    ("a card line behind a task", |r, text| { without(text); insert(r, text, 2, SMALL_LINE) }),
    ("a blank line in front of the card line", |_, text| second(text, &format!("\n{SMALL_LINE}"))),
    ("a bad line behind the card line", |r, text| second(text, &format!("{SMALL_LINE}{}", r.pick(&OTHERS)))),
    ("a card line without its newline at the end", |_, text| cut(text)),
];

/// Lines that look like the small card's.
#[rustfmt::skip]
const OTHERS: [&str; 22] = [
    "card wide\n", "card\n", "card \n", "card  small\n", "card small \n", " card small\n", "card\tsmall\n",
    "card small\r\n", "card small\0\n", "card small small\n", "card small 240\n", "card Small\n", "card SMALL\n",
    "Card small\n", "card smal\n", "card smalls\n", "cards small\n", "cardsmall\n", "card_small\n", "card 1\n",
    "small\n", "policy small\n",
];

/// Puts these lines in the place of the card's, or where that would stand.
fn second(text: &mut Vec<u8>, put: &str) {
    without(text);
    let mut lines = lines(text);
    lines.insert(1, put.as_bytes().to_vec());
    *text = lines.concat();
}

fn without(text: &mut Vec<u8>) {
    let mut lines = lines(text);
    lines.retain(|line| line != SMALL_LINE.as_bytes());
    *text = lines.concat();
}

/// The policy's line and the card's, and nothing more.
fn cut(text: &mut Vec<u8>) {
    second(text, SMALL_LINE);
    *text = lines(text)[..2].concat();
    text.pop();
}

#[cfg(test)]
mod tests {
    use super::*;
    use crate::random::Random;
    use crate::text::listed;
    use crate::text::reader::read;

    #[test]
    fn none_leaves_a_text_that_is_read() {
        let mut random = Random::new(3);
        for (name, spoil) in SPOILS {
            for _ in 0..200 {
                let mut text = listed::valid(&mut random);
                assert!(read(&text).is_ok());
                spoil(&mut random, &mut text);
                assert!(read(&text).is_err(), "{name}: {text:?}");
            }
        }
    }
}
