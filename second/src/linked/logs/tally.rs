//! How often each answer of the reader and the writer of logs came in a run.

use super::append::Call;
use super::lent::Lengths;
use crate::counts::Counts;
use crate::log::reader::{Found, REASONS};
use crate::log::spoil::SPOILS;
use crate::log::writer::{end_of_last_plan, written, Refused};
use crate::log::{Log, BLOCK, CARRIED, LONGEST_PART};

/// What comes of a log; a run without any of these fails, and so does one without a damage or a reason for 21.
const LINES: [&str; 36] = [
    "no plan, not a whole block",
    "no plan, blocks without a trailer",
    "refused 21, several reasons",
    "refused 21, and a buffer is short",
    "refused 22, startup alone",
    "refused 22, cycle alone",
    "refused 22, both",
    "refused 22, one entry short",
    "a plan, no entry",
    "a plan, no pad byte",
    "a plan, 65,535 entries in a part",
    "a plan, exact buffers",
    "a plan, longer buffers",
    "a plan, a part block dropped",
    "a plan, blocks stepped over",
    "a plan, a row of more than two words",
    "code 4, a row of no word",
    "code 4, a row of one word",
    "code 4, and no plan",
    "code 4, and a reason for 21",
    "code 4, and a reason for 22 alone",
    "code 4, and a plan that fits",
    "appended, at the front",
    "appended, after a trailer",
    "appended, an unfinished plan cut back",
    "appended, bytes cut back and not reached",
    "appended, no entry",
    "appended, 65,535 entries in a part",
    "appended, exact room",
    "appended, a used count above the buffer",
    "refused 23, room alone",
    "refused 23, room one byte short alone",
    "refused 23, a length alone",
    "refused 23, startup of 65,536 alone",
    "refused 23, cycle of 65,536 alone",
    "refused 23, room and a length",
];

pub struct Tally {
    pub counts: Counts,
}

impl Tally {
    pub fn of_logs() -> Tally {
        let damages = SPOILS.map(|(name, _)| damage(name));
        let reasons = REASONS.map(alone);
        let lines = damages.into_iter().chain(reasons);
        let lines = lines.chain(LINES.map(String::from));
        Tally {
            counts: Counts::of(lines.map(|line| (line, true))),
        }
    }

    pub fn add_damage(&mut self, name: &str) {
        self.counts.note(&damage(name));
    }

    pub fn add_read(&mut self, log: &Log, found: &Found, lent: Lengths) {
        if lent.row < 2 {
            self.add_not_understood(found, lent);
            return;
        }
        match found {
            Found::NoPlan => {
                let line = if log.used < BLOCK {
                    "no plan, not a whole block"
                } else {
                    "no plan, blocks without a trailer"
                };
                self.counts.note(line);
            }
            Found::Damaged(reasons, lengths) => {
                self.add_damaged(reasons);
                let short = short(*lengths, lent) != [false; 2];
                self.counts
                    .note_if(short, "refused 21, and a buffer is short");
            }
            Found::Newest(plan) => {
                let lengths = [plan.startup.len(), plan.cycle.len()];
                match short(lengths, lent) {
                    [false, false] => self.add_plan(log, lengths, lent),
                    short => self.add_short(short, lengths, lent),
                }
            }
        }
    }

    fn add_not_understood(&mut self, found: &Found, lent: Lengths) {
        self.counts.note(match lent.row {
            0 => "code 4, a row of no word",
            _ => "code 4, a row of one word",
        });
        let fits = found.lengths().map(|lengths| short(lengths, lent)) == Some([false; 2]);
        self.counts.note(match (found, fits) {
            (Found::NoPlan, _) => "code 4, and no plan",
            (Found::Damaged(..), _) => "code 4, and a reason for 21",
            (Found::Newest(_), false) => "code 4, and a reason for 22 alone",
            (Found::Newest(_), true) => "code 4, and a plan that fits",
        });
    }

    fn add_damaged(&mut self, reasons: &[bool; 5]) {
        let why: Vec<usize> = (0..5).filter(|&at| reasons[at]).collect();
        match why[..] {
            [reason] => self.counts.note(&alone(REASONS[reason])),
            _ => self.counts.note("refused 21, several reasons"),
        }
    }

    fn add_short(&mut self, short: [bool; 2], lengths: [usize; 2], lent: Lengths) {
        self.counts.note(match short {
            [_, false] => "refused 22, startup alone",
            [false, _] => "refused 22, cycle alone",
            _ => "refused 22, both",
        });
        let by_one = lent.startup + 1 == lengths[0] || lent.cycle + 1 == lengths[1];
        self.counts.note_if(by_one, "refused 22, one entry short");
    }

    fn add_plan(&mut self, log: &Log, lengths: [usize; 2], lent: Lengths) {
        let lent_parts = [lent.startup, lent.cycle];
        let entries = lengths[0] + lengths[1];
        let left = log.used - end_of_last_plan(log.part());
        let full = entries > 0 && entries.is_multiple_of(CARRIED);
        let longer = lent_parts[0] > lengths[0] && lent_parts[1] > lengths[1];
        let lines = [
            (entries == 0, "a plan, no entry"),
            (full, "a plan, no pad byte"),
            (
                lengths.contains(&LONGEST_PART),
                "a plan, 65,535 entries in a part",
            ),
            (lent_parts == lengths, "a plan, exact buffers"),
            (longer, "a plan, longer buffers"),
            (!left.is_multiple_of(BLOCK), "a plan, a part block dropped"),
            (left >= BLOCK, "a plan, blocks stepped over"),
            (lent.row > 2, "a plan, a row of more than two words"),
        ];
        for (came, line) in lines {
            self.counts.note_if(came, line);
        }
    }

    pub fn add_append(&mut self, log: &Log, call: &Call, answered: Result<usize, Refused>) {
        let start = end_of_last_plan(log.part());
        match answered {
            Ok(end) => self.add_appended(log, call, start, end),
            Err(refused) => self.add_refused(log, call, start, refused),
        }
    }

    fn add_appended(&mut self, log: &Log, call: &Call, start: usize, end: usize) {
        let lengths = [call.plan.startup.len(), call.plan.cycle.len()];
        let above = call.used > log.buffer.len() as u64;
        let lines = [
            (start == 0, "appended, at the front"),
            (start > 0, "appended, after a trailer"),
            (log.used > start, "appended, an unfinished plan cut back"),
            (log.used > end, "appended, bytes cut back and not reached"),
            (lengths == [0, 0], "appended, no entry"),
            (
                lengths.contains(&LONGEST_PART),
                "appended, 65,535 entries in a part",
            ),
            (end == log.buffer.len(), "appended, exact room"),
            (above, "appended, a used count above the buffer"),
        ];
        for (came, line) in lines {
            self.counts.note_if(came, line);
        }
    }

    fn add_refused(&mut self, log: &Log, call: &Call, start: usize, refused: Refused) {
        let one_more = LONGEST_PART + 1;
        let (startup, cycle) = (call.plan.startup.len(), call.plan.cycle.len());
        match (refused.room, refused.length) {
            (true, true) => self.counts.note("refused 23, room and a length"),
            (true, false) => {
                self.counts.note("refused 23, room alone");
                let by_one = start + written(&call.plan).len() == log.buffer.len() + 1;
                self.counts
                    .note_if(by_one, "refused 23, room one byte short alone");
            }
            _ => {
                self.counts.note("refused 23, a length alone");
                let startup_alone = startup == one_more && cycle < one_more;
                let cycle_alone = cycle == one_more && startup < one_more;
                self.counts
                    .note_if(startup_alone, "refused 23, startup of 65,536 alone");
                self.counts
                    .note_if(cycle_alone, "refused 23, cycle of 65,536 alone");
            }
        }
    }
}

fn damage(name: &str) -> String {
    format!("damaged: {name}")
}

fn alone(reason: &str) -> String {
    format!("refused 21, {reason} alone")
}

/// Which of the lent buffers is shorter than its part.
fn short(lengths: [usize; 2], lent: Lengths) -> [bool; 2] {
    [lent.startup < lengths[0], lent.cycle < lengths[1]]
}
