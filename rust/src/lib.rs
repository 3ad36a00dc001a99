//! Whether a list of periodic tasks ever misses a deadline on one core, and its slot tables.
//!
//! A safe wrapper over functions that are written in Rattle and proved. Their declarations here are not proved: they are
//! assumed to match, as include/sholakpite.h is.

pub mod log;
mod text;
mod words;

pub use text::{
    answer, write, write_card, write_words, write_words_card, LONGEST_INPUT, LONGEST_OUTPUT,
};
pub use words::{check_tasks, check_tasks_card, check_words, check_words_card};

/// A table entry of an idle slot; any other entry is a task number.
pub const IDLE: u8 = 255;

/// The words that the answer's values need.
pub const ROW: usize = 8;

/// A task: job k is released at `offset + k * period`, needs `run` slots, and is due `deadline` slots after its release.
#[repr(C)]
#[derive(Clone, Copy, Debug, PartialEq, Eq)]
pub struct Task {
    pub offset: u64,
    pub run: u64,
    pub deadline: u64,
    pub period: u64,
}

/// The card that a list is for, by the number that C calls it by.
#[derive(Clone, Copy, Debug, PartialEq, Eq)]
pub enum Card {
    /// Its timer has every period that a task may have.
    Wide = 0,
    /// Its timer has the divisors of 240 and no other period.
    Small = 1,
}

/// Who gets the slot, by the number that C calls it by. What is equal goes to the lower task number.
#[derive(Clone, Copy, Debug, PartialEq, Eq)]
pub enum Policy {
    /// By task number.
    ListOrder = 0,
    /// By the shorter period.
    RateMonotonic = 1,
    /// By the shorter deadline.
    DeadlineMonotonic = 2,
    /// By the earlier instant due, then by the earlier release.
    EarliestDeadlineFirst = 3,
}

/// M, H and L of a feasible list, and the counts of its two tables.
#[derive(Clone, Copy, Debug, PartialEq, Eq)]
pub struct Plan {
    pub latest: u64,
    pub hyperperiod: u64,
    pub load: u64,
    pub startup_idle: u64,
    pub cycle_idle: u64,
    pub startup_preemptions: u64,
    pub cycle_preemptions: u64,
}

#[derive(Clone, Copy, Debug, PartialEq, Eq)]
pub enum Answer {
    /// No deadline is ever missed, and the two tables are the schedule for all time.
    Feasible(Plan),
    /// The first miss. The tables have the slots before it.
    Missed { task: u64, instant: u64 },
    /// The tasks want more slots than there are. Neither table is written.
    Overloaded { load: u64, hyperperiod: u64 },
    /// The list, or a buffer, is refused by the first of these that applies, and neither table is written: 1 no task or
    /// more than 16; then task by task 2 the period is 0 or above 16,384, 9 the card is small and its timer does not have
    /// the period, 3 the run time is 0 or above the deadline, 4 the deadline is above the period, 5 the offset is above
    /// 16,384; then 6 the hyperperiod is above 16,384; 7 `startup` is shorter than M + H; 8 `cycle` is shorter than H.
    Refused { number: u64, task: u64 },
}

/// Checks a list for a wide card. `startup` needs M + H entries and `cycle` H; both may be longer, and entries that are
/// not named keep their bytes.
pub fn check(list: &[Task], policy: Policy, startup: &mut [u8], cycle: &mut [u8]) -> Answer {
    let mut row = [0; ROW];
    let code = check_tasks(policy as u64, list, startup, cycle, &mut row);
    told(code, row)
}

/// Checks a list for the card that it names.
pub fn check_card(
    card: Card,
    list: &[Task],
    policy: Policy,
    startup: &mut [u8],
    cycle: &mut [u8],
) -> Answer {
    let mut row = [0; ROW];
    let code = check_tasks_card(card as u64, policy as u64, list, startup, cycle, &mut row);
    told(code, row)
}

/// The answer that a code and its row tell.
fn told(code: u64, row: [u64; ROW]) -> Answer {
    match code {
        0 => Answer::Feasible(Plan {
            latest: row[0],
            hyperperiod: row[1],
            load: row[2],
            startup_idle: row[3],
            cycle_idle: row[4],
            startup_preemptions: row[5],
            cycle_preemptions: row[6],
        }),
        1 => Answer::Missed {
            task: row[0],
            instant: row[1],
        },
        2 => Answer::Overloaded {
            load: row[0],
            hyperperiod: row[1],
        },
        3 => Answer::Refused {
            number: row[0],
            task: row[1],
        },
        code => {
            unreachable!("a known card and policy and a row of {ROW} words were answered {code}")
        }
    }
}
