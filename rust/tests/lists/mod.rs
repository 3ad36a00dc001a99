//! Lists that more than one test has.

use sholakpite::{Plan, Task};

pub const fn task(offset: u64, run: u64, deadline: u64, period: u64) -> Task {
    Task {
        offset,
        run,
        deadline,
        period,
    }
}

/// List b of document 01.
pub const LIST_B: [Task; 2] = [task(0, 2, 4, 4), task(1, 1, 2, 4)];

/// What document 01 says of it under EDF. Not every test asks for it.
#[allow(dead_code)]
pub const PLAN_B: Plan = Plan {
    latest: 1,
    hyperperiod: 4,
    load: 3,
    startup_idle: 1,
    cycle_idle: 1,
    startup_preemptions: 2,
    cycle_preemptions: 1,
};
