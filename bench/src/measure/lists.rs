//! The lists measured: hyperperiod 16,384, feasible under all four policies.

use bench::plain::Task;

/// Tasks as (offset, run, deadline, period), in an order that list order can serve.
type Row = (u64, u64, u64, u64);

// The second task is still unfinished when the third wakes: RM and EDF choose differently.
const FOUR: [Row; 4] = [
    (3, 2, 7, 8),
    (1_177, 40, 100, 128),
    (5, 14, 60, 64),
    (4_100, 1_900, 16_000, 16_384),
];

// Deadlines that don't grow with the periods keep the policies' choices apart.
const SIXTEEN: [Row; 16] = [
    (3, 1, 12, 16),
    (0, 2, 30, 32),
    (7, 4, 64, 64),
    (40, 3, 50, 64),
    (19, 7, 120, 128),
    (100, 8, 128, 128),
    (33, 14, 256, 256),
    (211, 13, 200, 256),
    (64, 28, 512, 512),
    (450, 25, 400, 512),
    (1_000, 60, 900, 1_024),
    (5, 110, 2_048, 2_048),
    (1_900, 100, 1_500, 2_048),
    (3_000, 230, 4_000, 4_096),
    (4_700, 450, 3_900, 8_192),
    (2_500, 900, 16_384, 16_384),
];

pub fn all() -> [Vec<Task>; 2] {
    [tasks_of(&FOUR), tasks_of(&SIXTEEN)]
}

fn tasks_of(rows: &[Row]) -> Vec<Task> {
    rows.iter()
        .map(|&(offset, run, deadline, period)| Task {
            offset,
            run,
            deadline,
            period,
        })
        .collect()
}
