//! The library's writer and our own on the same log and plan.

use super::tally::Tally;
use crate::linked::compare::place;
use crate::linked::lent::Lent;
use crate::log::reader::{find, Found};
use crate::log::writer::{append, Refused};
use crate::log::{Log, Plan};
use crate::random::Random;

/// A plan to append, and what is said of how much is used.
pub struct Call {
    pub plan: Plan,
    pub used: u64,
}

/// What differs; the log is then as our own writer left it.
pub fn compare(log: &mut Log, call: &Call, random: &mut Random, tally: &mut Tally) -> Vec<String> {
    let before = log.clone();
    let (lines, answered) = compare_in(log, call, random);
    tally.add_append(&before, call, answered);
    let told = tell(call, &before);
    let lines = lines.iter().map(|line| format!("append, {told}: {line}"));
    lines.collect()
}

/// What differs, and what our own writer answers.
pub fn compare_in(
    log: &mut Log,
    call: &Call,
    random: &mut Random,
) -> (Vec<String>, Result<usize, Refused>) {
    let Call { plan, used } = call;
    let mut lent = Lent::holding(random, &log.buffer, Random::byte);
    let parts = [&plan.startup, &plan.cycle].map(|part| Lent::holding(random, part, Random::byte));
    let parts_before = parts.clone();
    let mut expected = lent.clone();
    let ours = append(expected.part_mut(), *used, plan);
    let (startup, cycle) = (parts[0].part(), parts[1].part());
    let theirs = sholakpite::log::append(lent.part_mut(), *used as usize, startup, cycle);
    let answers = format!("answers: second {ours:?}, library {theirs:?}");
    let lines = [
        Some(answers).filter(|_| ours.ok() != theirs),
        place("second", "log byte", &expected, &lent),
        place("second", "startup entry", &parts_before[0], &parts[0]),
        place("second", "cycle entry", &parts_before[1], &parts[1]),
        settle(log, ours, expected.part(), plan),
    ];
    (lines.into_iter().flatten().collect(), ours)
}

/// Goes on with what our own writer left; a plan that was appended has to be the newest one.
fn settle(
    log: &mut Log,
    answered: Result<usize, Refused>,
    bytes: &[u8],
    plan: &Plan,
) -> Option<String> {
    let used = answered.ok()?;
    log.buffer.copy_from_slice(bytes);
    log.used = used;
    let newest = find(log.part()) == Found::Newest(plan.clone());
    (!newest).then(|| "what was appended is not read as the newest plan".to_string())
}

fn tell(call: &Call, log: &Log) -> String {
    let (startup, cycle) = (call.plan.startup.len(), call.plan.cycle.len());
    let (used, room) = (call.used, log.buffer.len());
    format!("{startup} and {cycle} entries, {used} used of {room}")
}
