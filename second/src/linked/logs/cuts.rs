//! Power cuts: a plan appended, and the log read from what is left after each of its bytes.

use super::append::{compare_in, Call};
use super::lent::{Buffers, Lengths};
use super::read;
use crate::findings::Findings;
use crate::log::made::plan_of;
use crate::log::reader::{find, Found};
use crate::log::writer::written;
use crate::log::{Log, Plan, BLOCK};
use crate::random::Random;

/// Plans of few entries, the checker's longest tables, and the longest that a trailer can say.
const PLANS: [(usize, usize); 13] = [
    (0, 0),
    (1, 0),
    (0, 1),
    (62, 0),
    (30, 32),
    (63, 0),
    (0, 63),
    (31, 32),
    (64, 0),
    (0, 64),
    (63, 1),
    (32_768, 16_384),
    (65_535, 65_535),
];

/// Where a plan has more bytes than this, one is appended again after some of the cuts only.
const EVERY: usize = 1_000;
const STRIDE: usize = 61;

/// How much was tried.
#[derive(Default)]
struct Tried {
    cuts: u64,
    again: u64,
}

/// Every plan, appended to an empty log and to one that has a plan; true when all agree.
pub fn run(seed: u64) -> bool {
    let mut random = Random::new(seed);
    let mut findings = Findings::of("power cut");
    let mut tried = Tried::default();
    for (number, (startup, cycle)) in (0..).zip(PLANS) {
        for earlier in [None, Some(plan_of(&mut random, 5, 4))] {
            let plan = plan_of(&mut random, startup, cycle);
            let lines = cut_all(earlier, plan, &mut random, &mut tried);
            let told = format!("a plan of {startup} and {cycle} entries");
            let lines: Vec<String> = lines.iter().map(|line| format!("{told}, {line}")).collect();
            // The first few tell what is wrong with all.
            findings.note(number, &lines[..lines.len().min(5)]);
        }
    }
    println!(
        "power cuts: {} plans in two logs each, read after each of {} bytes, appended again after {} of them",
        PLANS.len(),
        tried.cuts,
        tried.again
    );
    findings.none()
}

/// What differs after any of the cuts.
fn cut_all(
    earlier: Option<Plan>,
    plan: Plan,
    random: &mut Random,
    tried: &mut Tried,
) -> Vec<String> {
    let bytes = written(&plan).len();
    let newest = Found::Newest(plan.clone());
    let (log, mut lines) = appended(&earlier, plan, random);
    let whole = log.buffer.clone();
    let earlier = earlier.map_or(Found::NoPlan, Found::Newest);
    for cut in log.used - bytes..log.used {
        let found = read_left(&log.buffer[..cut], &earlier, random);
        lines.extend(found.iter().map(|line| format!("cut at {cut}: {line}")));
        if bytes <= EVERY || cut % STRIDE == 0 {
            let found = append_after(&log, cut, random);
            let told = |line| format!("appended again after a cut at {cut}: {line}");
            lines.extend(found.iter().map(told));
            tried.again += 1;
        }
    }
    tried.cuts += bytes as u64;
    lines.extend(read_left(log.part(), &newest, random));
    lines.extend(lose_front(&log, &earlier, &newest, random));
    if log.buffer != whole {
        lines.push("reading has changed the log".to_string());
    }
    lines
}

/// A log with this plan as its newest, room for another one, and what differs once it is appended.
fn appended(earlier: &Option<Plan>, plan: Plan, random: &mut Random) -> (Log, Vec<String>) {
    let mut buffer = earlier.as_ref().map_or(Vec::new(), written);
    let used = buffer.len();
    let room = used + written(&plan).len() + 500;
    buffer.resize_with(room, || random.byte());
    let mut log = Log { buffer, used };
    let used = used as u64;
    let (lines, _) = compare_in(&mut log, &Call { plan, used }, random);
    (log, lines)
}

/// Both programs have to find this in what is left; the bytes that are not stand right beside it.
fn read_left(left: &[u8], expected: &Found, random: &mut Random) -> Vec<String> {
    let [startup, cycle] = expected.lengths().unwrap_or([20, 20]);
    let lengths = Lengths {
        startup: startup + 3,
        cycle: cycle + 3,
        row: 3,
    };
    let mut lines = read::compare_in(left, expected, &Buffers::of(random, lengths));
    if find(left) != *expected {
        lines.push("second's reader finds something else".to_string());
    }
    lines
}

/// A plan appended to what is left has to be the newest one.
fn append_after(log: &Log, cut: usize, random: &mut Random) -> Vec<String> {
    let mut left = log.clone();
    left.used = cut;
    let startup = random.index(70);
    let plan = plan_of(random, startup, 70 - startup);
    let newest = Found::Newest(plan.clone());
    let used = cut as u64;
    let (mut lines, _) = compare_in(&mut left, &Call { plan, used }, random);
    lines.extend(read_left(left.part(), &newest, random));
    lines
}

/// The log without its first block. Where there is an earlier plan, the newest one is untouched. Where there is none,
/// it points before the start, and the lost block stands right before what is lent; a trailer alone leaves nothing.
fn lose_front(log: &Log, earlier: &Found, newest: &Found, random: &mut Random) -> Vec<String> {
    let expected = match (earlier, newest.lengths()) {
        (Found::Newest(_), _) => newest.clone(),
        (_, Some([startup, cycle])) if startup + cycle > 0 => {
            let before_the_start = [false, true, false, false, false];
            Found::Damaged(before_the_start, [startup, cycle])
        }
        _ => Found::NoPlan,
    };
    let lines = read_left(&log.part()[BLOCK..], &expected, random);
    let told = |line| format!("without the first block: {line}");
    lines.iter().map(told).collect()
}
