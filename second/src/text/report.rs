//! What is printed for a text: its verdict in lines, or the line that can't be read.

use super::reader::{self, Told};
use crate::case::{words_of, Case};
use crate::paper::{Answer, IDLE};
use crate::verdict::{judge, Verdict};

/// A text's whole output, and what it was made from.
pub struct Output {
    pub bytes: Vec<u8>,
    /// The list and its verdict, or the line that can't be read.
    pub read: Result<(Told, Verdict), u64>,
}

impl Output {
    /// Claims of the paper that our own walk contradicts.
    pub fn broken(&self) -> Vec<String> {
        match &self.read {
            Ok((_, verdict)) => verdict.broken.clone(),
            Err(_) => Vec::new(),
        }
    }
}

pub fn output(input: &[u8]) -> Output {
    let read = reader::read(input).map(|told| {
        // Tables are printed whole, so their buffers always have the lengths that they need.
        let list = words_of(&told.tasks);
        let verdict = judge(&Case::exact(told.card.number(), told.policy, list));
        (told, verdict)
    });
    let text = match &read {
        Ok((_, verdict)) => report(verdict),
        Err(line) => format!("unread {line}\n"),
    };
    Output {
        bytes: text.into_bytes(),
        read,
    }
}

fn report(verdict: &Verdict) -> String {
    match verdict.answer {
        Answer::Feasible {
            hyperperiod,
            load,
            idle,
            preemptions,
            ..
        } => format!(
            "feasible\nhyperperiod {hyperperiod}\nload {load}\nidle {} {}\n\
             preemptions {} {}\nfirst{}\nagain{}\n",
            idle[0],
            idle[1],
            preemptions[0],
            preemptions[1],
            slots(&verdict.startup),
            slots(&verdict.cycle)
        ),
        Answer::Missed { task, instant } => format!("missed {task} {instant}\n"),
        Answer::Overloaded { load, hyperperiod } => format!("overloaded {load} {hyperperiod}\n"),
        Answer::Refused { number, task } => format!("refused {number} {task}\n"),
        Answer::NotAsked => unreachable!("a text names a known card and policy and whole tasks"),
    }
}

/// Each slot with a space before it.
fn slots(table: &[u8]) -> String {
    let slot = |&entry: &u8| match entry {
        IDLE => " -".to_string(),
        task => format!(" {task}"),
    };
    table.iter().map(slot).collect()
}

#[cfg(test)]
mod tests {
    use super::*;

    fn printed(text: &str) -> String {
        let output = output(text.as_bytes());
        String::from_utf8(output.bytes).expect("an output is plain text")
    }

    #[test]
    fn list_b_prints_the_papers_lines_on_either_card() {
        for card in ["", "card small\n"] {
            assert_eq!(
                printed(&format!("policy edf\n{card}task 0 2 4 4\ntask 1 1 2 4\n")),
                "feasible\nhyperperiod 4\nload 3\nidle 1 1\npreemptions 2 1\n\
                 first 0 1 0 - 0\nagain 1 0 - 0\n"
            );
        }
    }

    #[test]
    fn list_c_prints_the_papers_tables() {
        assert_eq!(
            printed("policy edf\ntask 0 2 4 4\ntask 3 2 4 4\n"),
            "feasible\nhyperperiod 4\nload 4\nidle 1 0\npreemptions 0 0\n\
             first 0 0 - 1 1 0 0\nagain 1 1 0 0\n"
        );
    }

    #[test]
    fn other_answers_are_one_line() {
        let cases = [
            ("policy edf\ntask 0 1 1 4\ntask 4 1 1 4\n", "missed 1 5\n"),
            (
                "policy dm\ntask 0 1 1 1\ntask 0 1 2 2\n",
                "overloaded 3 2\n",
            ),
            ("policy rm\ntask 0 2 5 5\ntask 0 4 7 7\n", "missed 1 7\n"),
            ("policy list\ntask 0 4 7 7\ntask 0 2 5 5\n", "missed 1 5\n"),
            ("policy rm\ntask 0 4 7 7\ntask 0 2 5 5\n", "missed 0 7\n"),
            (
                "policy list\ntask 0 1 128 128\ntask 0 1 129 129\n",
                "refused 6 0\n",
            ),
            (
                "policy edf\ntask 0 1 1 1\ntask 16385 1 4 4\n",
                "refused 5 1\n",
            ),
            ("policy edf\ntask 0 2 5 4\n", "refused 4 0\n"),
            ("policy edf\n", "refused 1 0\n"),
            ("policy edf\ncard small\n", "refused 1 0\n"),
            ("policy rm\ncard small\ntask 0 1 7 7\n", "refused 9 0\n"),
            (
                "policy edf\ncard small\ntask 0 1 4 4\ntask 0 0 9 9\n",
                "refused 9 1\n",
            ),
            ("policy dm\ncard small\ntask 0 0 4 4\n", "refused 3 0\n"),
            ("policy edf\ncard wide\ntask 0 1 1 1\n", "unread 2\n"),
            ("policy edf", "unread 1\n"),
            ("", "unread 1\n"),
        ];
        for (text, lines) in cases {
            assert_eq!(printed(text), lines, "{text:?}");
        }
    }

    #[test]
    fn too_many_tasks_are_refused_once_all_lines_are_read() {
        let lines = |count| format!("policy edf\n{}", "task 0 0 0 0\n".repeat(count));
        assert_eq!(printed(&lines(17)), "refused 1 0\n");
        assert_eq!(printed(&lines(16)), "refused 2 0\n");
        assert_eq!(printed(&(lines(38) + "task 0 0 0\n")), "unread 40\n");
    }
}
