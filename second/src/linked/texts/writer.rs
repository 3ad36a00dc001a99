//! Our own writer: the text of a card, a policy and a list of words, or what is answered where nothing is written.

use crate::card::Card;
use crate::paper::{self, MOST_TASKS, TASK_WORDS};
use crate::text::reader::{MOST_NUMBER, POLICIES};
use crate::text::writer::text;

pub const NOT_UNDERSTOOD: u64 = 4;
pub const REFUSED: u64 = 13;

/// The text; or, where nothing is written into a buffer with this much room, the number that is answered.
pub fn write(card: u64, policy: u64, list: &[u64], room: usize) -> Result<Vec<u8>, u64> {
    let (Some(card), Some(name)) = (Card::of(card), POLICIES.get(policy as usize)) else {
        return Err(NOT_UNDERSTOOD);
    };
    if !list.len().is_multiple_of(TASK_WORDS) {
        return Err(NOT_UNDERSTOOD);
    }
    let text = text(card, name, &paper::tasks_of(list));
    if list.len() > TASK_WORDS * MOST_TASKS
        || list.iter().any(|&word| word > MOST_NUMBER)
        || room < text.len()
    {
        return Err(REFUSED);
    }
    Ok(text)
}

#[cfg(test)]
mod tests {
    use super::*;
    use crate::card::CARDS;
    use crate::text::reader::{read, Told};

    const TEXT_B: &[u8] = b"policy edf\ntask 0 2 4 4\ntask 1 1 2 4\n";
    const SMALL_B: &[u8] = b"policy edf\ncard small\ntask 0 2 4 4\ntask 1 1 2 4\n";
    const LIST_B: [u64; 8] = [0, 2, 4, 4, 1, 1, 2, 4];

    #[test]
    fn list_b_is_written_where_it_has_room() {
        for (card, text) in [(0, TEXT_B), (1, SMALL_B)] {
            assert_eq!(write(card, 3, &LIST_B, text.len()), Ok(text.to_vec()));
            assert_eq!(write(card, 3, &LIST_B, 4_096), Ok(text.to_vec()));
            assert_eq!(write(card, 3, &LIST_B, text.len() - 1), Err(REFUSED));
        }
    }

    #[test]
    fn what_is_written_says_the_same_list() {
        for card in CARDS {
            for policy in 0..paper::POLICY_COUNT {
                let list = [999_999; TASK_WORDS * MOST_TASKS];
                let text = write(card.number(), policy, &list, 4_096).expect("it fits");
                let tasks = paper::tasks_of(&list);
                let told = Told {
                    card,
                    policy,
                    tasks,
                };
                assert_eq!(read(&text), Ok(told));
            }
        }
    }

    #[test]
    fn refusals_come_after_calls_that_are_not_understood() {
        let many = [0; TASK_WORDS * (MOST_TASKS + 1)];
        for card in [0, 1] {
            assert_eq!(write(card, 0, &many, 4_096), Err(REFUSED));
            assert_eq!(write(card, 0, &[0, 0, 0, 1_000_000], 4_096), Err(REFUSED));
            assert_eq!(write(card, 4, &many, 4_096), Err(NOT_UNDERSTOOD));
            assert_eq!(write(card, 0, &many[1..], 4_096), Err(NOT_UNDERSTOOD));
            assert_eq!(write(card, 4, &LIST_B, 0), Err(NOT_UNDERSTOOD));
        }
        assert_eq!(write(2, 0, &many, 4_096), Err(NOT_UNDERSTOOD));
        assert_eq!(write(257, 3, &LIST_B, 4_096), Err(NOT_UNDERSTOOD));
        assert_eq!(write(0, 2, &[], 10), Ok(b"policy dm\n".to_vec()));
        assert_eq!(
            write(1, 2, &[], 21),
            Ok(b"policy dm\ncard small\n".to_vec())
        );
        assert_eq!(write(1, 2, &[], 20), Err(REFUSED));
    }
}
