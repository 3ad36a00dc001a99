//! A text damaged without a look at what it says: its bytes, its lines, its end.

use crate::random::Random;

pub type Spoil = fn(&mut Random, &mut Vec<u8>);

/// Each damage, by its name.
pub const SPOILS: [(&str, Spoil); 12] = [
    ("a byte changed", |r, text| byte_changed(r, text)),
    ("a bit changed", |r, text| bit_changed(r, text)),
    ("a byte dropped", byte_dropped),
    ("a byte doubled", byte_doubled),
    ("a byte inserted", byte_inserted),
    ("bytes swapped", |r, text| bytes_swapped(r, text)),
    ("a line dropped", line_dropped),
    ("a line doubled", line_doubled),
    ("lines swapped", lines_swapped),
    ("the end cut off", end_cut),
    ("the last newline dropped", last_newline_dropped),
    ("bytes behind the last newline", bytes_behind),
];

/// Bytes that mean something in a text, or look as if they did.
const TELLING: &[u8] = b"0123456789 \n\r\t\0-+.,_xXeEpPtTcCsSlrdmf\x0b\x0c\x1a\x85\xa0\xff";

/// A byte to put into a text.
fn telling(random: &mut Random) -> u8 {
    if random.once_in(4) {
        random.byte()
    } else {
        random.pick(TELLING)
    }
}

fn byte_changed(random: &mut Random, text: &mut [u8]) {
    let at = random.index(text.len());
    text[at] = telling(random);
}

/// Upper case for lower case, a high byte for a plain one, and the like.
fn bit_changed(random: &mut Random, text: &mut [u8]) {
    let at = random.index(text.len());
    text[at] ^= 1 << random.below(8);
}

fn byte_dropped(random: &mut Random, text: &mut Vec<u8>) {
    text.remove(random.index(text.len()));
}

fn byte_doubled(random: &mut Random, text: &mut Vec<u8>) {
    let at = random.index(text.len());
    text.insert(at, text[at]);
}

fn byte_inserted(random: &mut Random, text: &mut Vec<u8>) {
    let at = random.index(text.len() + 1);
    text.insert(at, telling(random));
}

fn bytes_swapped(random: &mut Random, text: &mut [u8]) {
    let at = random.index(text.len());
    let other = (at + 1) % text.len();
    text.swap(at, other);
}

/// The lines, each with its newline where it has one.
pub fn lines(text: &[u8]) -> Vec<Vec<u8>> {
    text.split_inclusive(|&byte| byte == b'\n')
        .map(<[u8]>::to_vec)
        .collect()
}

fn line_dropped(random: &mut Random, text: &mut Vec<u8>) {
    let mut lines = lines(text);
    lines.remove(random.index(lines.len()));
    *text = lines.concat();
}

fn line_doubled(random: &mut Random, text: &mut Vec<u8>) {
    let mut lines = lines(text);
    let at = random.index(lines.len());
    lines.insert(at, lines[at].clone());
    *text = lines.concat();
}

fn lines_swapped(random: &mut Random, text: &mut Vec<u8>) {
    let mut lines = lines(text);
    let (at, other) = (random.index(lines.len()), random.index(lines.len()));
    lines.swap(at, other);
    *text = lines.concat();
}

fn end_cut(random: &mut Random, text: &mut Vec<u8>) {
    text.truncate(random.index(text.len()));
}

fn last_newline_dropped(_: &mut Random, text: &mut Vec<u8>) {
    text.pop();
}

fn bytes_behind(random: &mut Random, text: &mut Vec<u8>) {
    for _ in 0..random.between(1, 3) {
        text.push(telling(random));
    }
}
