//! Texts of every kind to hand over: good ones, damaged ones, long ones and noise.

use super::{bytes, cards, fields, listed, sizes};
use crate::random::Random;

/// A text, and the name of how it was made.
pub struct Input {
    pub bytes: Vec<u8>,
    pub made: String,
}

const VALID: &str = "a list inside its limits";
const UNTIMED: &str = "a small card, another period";
const ANY: &str = "any list";
const LONG_TABLES: &str = "M and H 16,384";
const SEVERAL: &str = "several damages";
const EMPTY: &str = "empty";
const RANDOM_BYTES: &str = "random bytes";
const RANDOM_WORDS: &str = "random words";

/// Words that a text is made of.
const WORDS: [&str; 18] = [
    "policy ", "policy", "list", "rm", "dm", "edf", "card ", "card", "small", "wide", "task ",
    "task", " ", "\n", "0", "1", "4", "01",
];

pub fn any(random: &mut Random) -> Input {
    let (bytes, made) = match random.below(1_000) {
        0..=1 => (listed::longest(random), LONG_TABLES.to_string()),
        2..=249 => (listed::valid(random), VALID.to_string()),
        250..=299 => (listed::untimed(random), UNTIMED.to_string()),
        300..=399 => (listed::any(random), ANY.to_string()),
        400..=849 => damaged(random),
        850..=899 => limited(random),
        900..=949 => counted(random),
        _ => noise(random),
    };
    Input { bytes, made }
}

/// Every name that an input of at most this many bytes may have.
pub fn names(longest: usize) -> Vec<String> {
    let damages = bytes::SPOILS
        .iter()
        .chain(&fields::SPOILS)
        .chain(&cards::SPOILS);
    let plain = [
        VALID,
        UNTIMED,
        ANY,
        LONG_TABLES,
        SEVERAL,
        EMPTY,
        RANDOM_BYTES,
        RANDOM_WORDS,
    ];
    let mut names: Vec<String> = damages
        .map(|(name, _)| name.to_string())
        .chain(plain.map(String::from))
        .collect();
    for (flaw, _) in sizes::FLAWS {
        let fits = |&length: &Option<usize>| sizes::shortest(length) <= longest;
        let lengths = sizes::LENGTHS.into_iter().filter(fits);
        let lengths = lengths.map(sizes::length_name);
        let counts = sizes::COUNTS.map(|(name, ..)| name.to_string());
        let sizes = lengths.chain(counts);
        names.extend(sizes.map(|size| format!("{size}, {flaw}")));
    }
    names
}

fn damaged(random: &mut Random) -> (Vec<u8>, String) {
    let mut text = listed::valid(random);
    let (name, spoil) = match random.below(4) {
        0 => random.pick(&bytes::SPOILS),
        1 => random.pick(&cards::SPOILS),
        _ => random.pick(&fields::SPOILS),
    };
    spoil(random, &mut text);
    if !random.once_in(6) {
        return (text, name.to_string());
    }
    for _ in 0..random.between(1, 3) {
        // A text that was damaged may have nothing left to damage.
        if !text.is_empty() {
            random.pick(&bytes::SPOILS).1(random, &mut text);
        }
    }
    (text, SEVERAL.to_string())
}

/// A text at the limit of its length.
fn limited(random: &mut Random) -> (Vec<u8>, String) {
    let length = random.pick(&sizes::LENGTHS);
    let (flaw, spoil) = random.pick(&sizes::FLAWS);
    let mut text = sizes::of_length(random, length);
    spoil(random, &mut text);
    (text, format!("{}, {flaw}", sizes::length_name(length)))
}

/// A text with as many tasks as a list may have, or more.
fn counted(random: &mut Random) -> (Vec<u8>, String) {
    let (name, least, most) = random.pick(&sizes::COUNTS);
    let (flaw, spoil) = random.pick(&sizes::FLAWS);
    let mut text = sizes::of_count(random, least, most);
    spoil(random, &mut text);
    (text, format!("{name}, {flaw}"))
}

fn noise(random: &mut Random) -> (Vec<u8>, String) {
    let count = random.pick(&[1, 4, 40, 400]);
    let count = random.between(1, count);
    match random.below(5) {
        0 => (Vec::new(), EMPTY.to_string()),
        1 => {
            let bytes = (0..count).map(|_| random.byte()).collect();
            (bytes, RANDOM_BYTES.to_string())
        }
        _ => {
            let words: Vec<&str> = (0..count).map(|_| random.pick(&WORDS)).collect();
            (words.concat().into_bytes(), RANDOM_WORDS.to_string())
        }
    }
}
