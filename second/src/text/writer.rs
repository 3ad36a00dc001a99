//! The text of a card, a policy and a list.

use super::reader::SMALL_LINE;
use crate::card::Card;
use crate::paper::Task;

/// The lines, whatever the name, the numbers and the count are.
pub fn text(card: Card, policy: &str, tasks: &[Task]) -> Vec<u8> {
    let mut text = format!("policy {policy}\n");
    text += match card {
        Card::Wide => "",
        Card::Small => SMALL_LINE,
    };
    for task in tasks {
        let [o, c, d, t] = task.words();
        text += &format!("task {o} {c} {d} {t}\n");
    }
    text.into_bytes()
}
