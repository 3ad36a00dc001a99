//! A list read from its text, line by line.

use crate::card::Card;
use crate::paper::{Task, TASK_WORDS};

pub const LONGEST_INPUT: usize = 4_096;
pub const MOST_NUMBER: u64 = 999_999;
/// A number with more digits is above the largest one, or begins with a zero.
const MOST_DIGITS: usize = 6;

/// The policies' names, each at its number.
pub const POLICIES: [&str; 4] = ["list", "rm", "dm", "edf"];

/// The line of a list for a small card, right behind the policy's; a list for a wide card has none.
pub const SMALL_LINE: &str = "card small\n";

/// What a text says.
#[derive(Clone, PartialEq, Debug)]
pub struct Told {
    pub card: Card,
    pub policy: u64,
    pub tasks: Vec<Task>,
}

/// Reads a text; otherwise the number of the first line that can't be read, or 0 where it is too long.
pub fn read(text: &[u8]) -> Result<Told, u64> {
    if text.len() > LONGEST_INPUT {
        return Err(0);
    }
    let lines = lines_of(text);
    let mut lines = (1_u64..).zip(lines.iter().map(Vec::as_slice)).peekable();
    // Where there is no line at all, line 1 is the one that is missing.
    let first = lines.next().ok_or(1_u64)?;
    let policy = policy(first.1).ok_or(first.0)?;
    let is_small = |(_, line): &(u64, &[u8])| *line == SMALL_LINE.as_bytes();
    let card = match lines.next_if(is_small) {
        Some(_) => Card::Small,
        None => Card::Wide,
    };
    let mut tasks = Vec::new();
    for (number, line) in lines {
        tasks.push(task(line).ok_or(number)?);
    }
    Ok(Told {
        card,
        policy,
        tasks,
    })
}

/// Each line with its newline, byte by byte; what is behind the last newline is a line too.
fn lines_of(text: &[u8]) -> Vec<Vec<u8>> {
    let mut lines = Vec::new();
    let mut line = Vec::new();
    for &byte in text {
        line.push(byte);
        if byte == b'\n' {
            lines.push(std::mem::take(&mut line));
        }
    }
    if !line.is_empty() {
        lines.push(line);
    }
    lines
}

fn policy(line: &[u8]) -> Option<u64> {
    let name = line.strip_suffix(b"\n")?.strip_prefix(b"policy ")?;
    let at = POLICIES.iter().position(|known| known.as_bytes() == name)?;
    Some(at as u64)
}

fn task(line: &[u8]) -> Option<Task> {
    let fields = line.strip_suffix(b"\n")?.strip_prefix(b"task ")?;
    let numbers: Option<Vec<u64>> = fields.split(|&byte| byte == b' ').map(number).collect();
    let [offset, run, deadline, period]: [u64; TASK_WORDS] = numbers?.try_into().ok()?;
    Some(Task {
        offset,
        run,
        deadline,
        period,
    })
}

fn number(field: &[u8]) -> Option<u64> {
    let digits = field.iter().all(u8::is_ascii_digit);
    let fits = (1..=MOST_DIGITS).contains(&field.len());
    let zero_leads = field.len() > 1 && field[0] == b'0';
    if !digits || !fits || zero_leads {
        return None;
    }
    let value = |number, digit: &u8| 10 * number + u64::from(digit - b'0');
    Some(field.iter().fold(0, value))
}

#[cfg(test)]
mod tests {
    use super::*;
    use crate::paper::tasks_of;

    fn told(card: Card, policy: u64, words: &[u64]) -> Result<Told, u64> {
        Ok(Told {
            card,
            policy,
            tasks: tasks_of(words),
        })
    }

    #[test]
    fn a_readable_text_says_its_list() {
        let list_b = b"policy edf\ntask 0 2 4 4\ntask 1 1 2 4\n";
        assert_eq!(read(list_b), told(Card::Wide, 3, &[0, 2, 4, 4, 1, 1, 2, 4]));
        assert_eq!(read(b"policy list\n"), told(Card::Wide, 0, &[]));
        assert_eq!(read(b"policy rm\n"), told(Card::Wide, 1, &[]));
        let large = b"policy dm\ntask 999999 0 10 100000\n";
        assert_eq!(read(large), told(Card::Wide, 2, &[999_999, 0, 10, 100_000]));
    }

    #[test]
    fn a_card_line_behind_the_policy_says_that_the_card_is_small() {
        let list_b = b"policy edf\ncard small\ntask 0 2 4 4\ntask 1 1 2 4\n";
        let words = [0, 2, 4, 4, 1, 1, 2, 4];
        assert_eq!(read(list_b), told(Card::Small, 3, &words));
        assert_eq!(read(b"policy rm\ncard small\n"), told(Card::Small, 1, &[]));
    }

    #[test]
    fn another_card_line_or_one_elsewhere_can_not_be_read() {
        let lines = [
            "card\n",
            "card \n",
            "card wide\n",
            "card Small\n",
            "Card small\n",
            "card  small\n",
            "card small \n",
            " card small\n",
            "card\tsmall\n",
            "card small\r\n",
            "card small 1\n",
            "card smal\n",
            "card smalls\n",
            "cardsmall\n",
            "card 1\n",
            "card small\0\n",
            "card small",
        ];
        for line in lines {
            let text = format!("policy edf\n{line}task 0 1 1 1\n");
            assert_eq!(read(text.as_bytes()), Err(2), "{line:?}");
        }
        let elsewhere = [
            ("card small\npolicy edf\n", 1),
            ("policy edf\ncard small\ncard small\n", 3),
            ("policy edf\ntask 0 1 1 1\ncard small\n", 3),
            ("policy edf\ncard small\ntask 0 1 1 1\ncard small\n", 4),
            ("policy edf\ncard small", 2),
            ("policy edf\n\ncard small\n", 2),
            ("policy edf\ncard small\n\n", 3),
            ("policy edf\ncard small\ntask 0 1 1\n", 3),
        ];
        for (text, line) in elsewhere {
            assert_eq!(read(text.as_bytes()), Err(line), "{text:?}");
        }
    }

    #[test]
    fn a_first_line_that_names_no_policy_is_line_1() {
        let texts = [
            "",
            "\n",
            "policy",
            "policy\n",
            "policy \n",
            "policy edf",
            "policy EDF\n",
            "Policy edf\n",
            "policy fifo\n",
            "policy  edf\n",
            "policy edf \n",
            " policy edf\n",
            "policy\tedf\n",
            "policy edf\r\n",
            "policy rm dm\n",
            "policy 3\n",
            "\npolicy edf\n",
            "task 0 1 1 1\n",
            "task 0 1 1 1\npolicy edf\n",
        ];
        for text in texts {
            assert_eq!(read(text.as_bytes()), Err(1), "{text:?}");
        }
    }

    #[test]
    fn a_later_line_that_is_no_task_has_its_number() {
        let lines = [
            "\n",
            "policy edf\n",
            "task\n",
            "task \n",
            "task 0 1 1\n",
            "task 0 1 1 1 1\n",
            "task 0 1 1 1",
            "task 0 1 1 1 \n",
            " task 0 1 1 1\n",
            "task  0 1 1 1\n",
            "task 0 1  1 1\n",
            "task 0 1\t1 1\n",
            "task 0 1 1 1\r\n",
            "Task 0 1 1 1\n",
            "tasks 0 1 1 1\n",
            "task +0 1 1 1\n",
            "task -0 1 1 1\n",
            "task 00 1 1 1\n",
            "task 0 01 1 1\n",
            "task 0 1 1 1000000\n",
            "task 0 1 1 0000001\n",
            "task 0 1 1 18446744073709551617\n",
            "task 0 1 1 100000000000000000000000000001\n",
            "task 0 1 1 0x1\n",
            "task 0 1 1 \u{661}\n",
            "task 0 1 1 1\0\n",
        ];
        for line in lines {
            let text = format!("policy edf\n{line}");
            assert_eq!(read(text.as_bytes()), Err(2), "{line:?}");
            let text = format!("policy edf\ntask 0 1 1 1\n{line}");
            assert_eq!(read(text.as_bytes()), Err(3), "{line:?}");
        }
    }

    #[test]
    fn the_first_bad_line_is_named_also_past_the_tasks_of_a_list() {
        let good = |lines| format!("policy edf\n{}", "task 0 1 1 1\n".repeat(lines));
        assert_eq!(
            read(good(60).as_bytes()).map(|told| told.tasks.len()),
            Ok(60)
        );
        let bad = good(38) + "task 0 1 1 01\n\n";
        assert_eq!(read(bad.as_bytes()), Err(40));
    }

    #[test]
    fn too_much_is_looked_at_first() {
        let digits = "1".repeat(LONGEST_INPUT);
        assert_eq!(read(digits.as_bytes()), Err(1));
        assert_eq!(read(format!("{digits}1").as_bytes()), Err(0));
        let lines = |last: &str| format!("policy edf\n{}{last}", "task 0 1 1 1\n".repeat(313));
        let longest = lines("task 10 10 1 1\n");
        assert_eq!(longest.len(), LONGEST_INPUT - 1);
        assert_eq!(
            read(longest.as_bytes()).map(|told| told.tasks.len()),
            Ok(314)
        );
        let exact = lines("task 10 10 10 1\n");
        assert_eq!(read(exact.as_bytes()).map(|told| told.tasks.len()), Ok(314));
        assert_eq!(read(lines("task 10 10 10 10\n").as_bytes()), Err(0));
    }
}
