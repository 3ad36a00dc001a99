//! What the library writes for a card, a policy and a list, compared with our own writer, and read again.

use super::compare::{compare, rooms};
use super::pairs::Pair;
use super::tally::Tally;
use super::writer;
use crate::card::Card;
use crate::linked::compare::place;
use crate::linked::lent::{lend, Lent};
use crate::paper;
use crate::random::Random;
use crate::text::reader::{self, Told};
use crate::text::report;

/// What differs for this pair, in any of the buffers.
pub fn compare_pair(pair: &Pair, random: &mut Random, tally: &mut Tally) -> Vec<String> {
    let mut found = Vec::new();
    let text = pair.text();
    for room in rooms(random, text.len()) {
        tally.add(pair, text.len(), room);
        for (name, entry) in entries(pair) {
            let (lines, written) = compare_in(pair, entry, room, random);
            let told = |line| format!("{name}, room {room}: {line}");
            found.extend(lines.into_iter().map(told));
            if room == text.len() {
                let again = written
                    .iter()
                    .flat_map(|text| read_again(pair, text, random));
                found.extend(again);
            }
        }
    }
    found
}

/// A writer of the library, over a list and the room that it is lent.
type Entry = fn(&Pair, &[u64], &mut [u8]) -> u64;

/// The library's writers that take this pair, each with its name.
fn entries(pair: &Pair) -> Vec<(&'static str, Entry)> {
    let mut entries: Vec<(&str, Entry)> = vec![("with card", |pair, list, out| {
        sholakpite::write_words_card(pair.card, pair.policy, list, out)
    })];
    if pair.card == Card::Wide.number() {
        entries.push(("without card", |pair, list, out| {
            sholakpite::write_words(pair.policy, list, out)
        }));
    }
    entries
}

/// What differs in a buffer of this length, and what the library wrote into it.
fn compare_in(
    pair: &Pair,
    entry: Entry,
    room: usize,
    random: &mut Random,
) -> (Vec<String>, Option<Vec<u8>>) {
    let list = Lent::holding(random, &pair.list, Random::next);
    let list_before = list.clone();
    let mut out = lend(random, room, Random::byte);
    let mut out_expected = out.clone();
    let expected = match writer::write(pair.card, pair.policy, &pair.list, room) {
        Ok(text) => {
            out_expected.part_mut()[..text.len()].copy_from_slice(&text);
            text.len() as u64
        }
        Err(number) => number,
    };
    let answered = entry(pair, list.part(), out.part_mut());
    let answers = format!("answers: second {expected}, library {answered}");
    let lines = [
        Some(answers).filter(|_| expected != answered),
        place("second", "text byte", &out_expected, &out),
        place("second", "list word", &list_before, &list),
    ];
    let nothing = [writer::REFUSED, writer::NOT_UNDERSTOOD].contains(&answered);
    let end = (answered as usize).min(room);
    let written = (!nothing).then(|| out.part()[..end].to_vec());
    (lines.into_iter().flatten().collect(), written)
}

/// The text has to say the same card, policy and list, to our reader and to the library's.
fn read_again(pair: &Pair, text: &[u8], random: &mut Random) -> Vec<String> {
    let mut found = Vec::new();
    let told = Card::of(pair.card).map(|card| Told {
        card,
        policy: pair.policy,
        tasks: paper::tasks_of(&pair.list),
    });
    let read = reader::read(text);
    if read.as_ref().ok() != told.as_ref() {
        found.push(format!("what was written is read as {read:?}"));
    }
    let lines = compare(text, &report::output(text), random);
    found.extend(lines.iter().map(|line| format!("read again: {line}")));
    found
}
