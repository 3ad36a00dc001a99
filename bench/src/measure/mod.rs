//! The measurement: every list under every policy, in rounds; then logs of plans.

mod library;
mod lists;
mod logs;

use bench::plain::{Answer, Policy, Task, plain_loop, plain_passes};
use library::{Check, LIBRARIES};
use std::hint::black_box;
use std::time::Instant;

const ROUNDS: usize = 151;
const WARM_UP_ROUNDS: usize = 5;
const POLICIES: [(Policy, &str); 4] = [
    (Policy::ListOrder, "list-order"),
    (Policy::RateMonotonic, "rate-monotonic"),
    (Policy::DeadlineMonotonic, "deadline-monotonic"),
    (Policy::EarliestDeadlineFirst, "EDF"),
];

type Plain = fn(&[Task], Policy, &mut [u8], &mut [u8]) -> Answer;
const PLAIN: [(Plain, &str); 2] = [(plain_passes, "passes"), (plain_loop, "loop")];

/// A list in both forms, and the buffers that every checker writes to.
struct Bench {
    tasks: Vec<Task>,
    words: Vec<u64>,
    slots: u64,
    startup: Vec<u8>,
    cycle: Vec<u8>,
}

/// Nanoseconds of one round: each library, then each plain checker.
type Round = ([f64; LIBRARIES.len()], [f64; PLAIN.len()]);

pub fn all() {
    println!("note repetitions: {ROUNDS} rounds (libraries, plain) after {WARM_UP_ROUNDS} untimed");
    println!("note buffers: one pair for all checkers, filled before timing, never cleared");
    for tasks in lists::all() {
        let mut bench = Bench::new(tasks);
        println!("{}", bench.note());
        for (policy, name) in POLICIES {
            bench.assert_same_answers(policy);
            let rounds = bench.measure(policy);
            for version in 0..LIBRARIES.len() {
                for plain in 0..PLAIN.len() {
                    bench.print_row(name, &rounds, version, plain);
                }
            }
        }
    }
    logs::all();
}

impl Bench {
    fn new(tasks: Vec<Task>) -> Bench {
        let mut startup = vec![0; (Task::LARGEST_OFFSET + Task::LONGEST_HYPERPERIOD) as usize];
        let mut cycle = vec![0; Task::LONGEST_HYPERPERIOD as usize];
        // Zeroed memory may not be there yet: writing another byte touches each page.
        startup.fill(1);
        cycle.fill(1);
        Bench {
            words: words_of(&tasks),
            slots: slots_of(&tasks, &mut startup, &mut cycle),
            tasks,
            startup,
            cycle,
        }
    }

    fn note(&self) -> String {
        let count = self.tasks.len();
        let parts: f64 = self
            .tasks
            .iter()
            .map(|task| task.run as f64 / task.period as f64)
            .sum();
        let load = 100.0 * parts;
        format!(
            "note {count} tasks: {} slots for each run, load {load:.1} %",
            self.slots
        )
    }

    /// The medians over all rounds, as one line of the table.
    fn print_row(&self, policy: &str, rounds: &[Round], version: usize, at: usize) {
        let slots = self.slots as f64;
        let ratio = |round: &Round| round.0[version] / round.1[at];
        println!(
            "row {} {policy} {} {} {:.4} {:.3} {:.3}",
            self.tasks.len(),
            LIBRARIES[version].1,
            PLAIN[at].1,
            median(rounds.iter().map(ratio)),
            median(rounds.iter().map(|(library, _)| library[version] / slots)),
            median(rounds.iter().map(|(_, plain)| plain[at] / slots))
        );
    }

    fn assert_same_answers(&self, policy: Policy) {
        // Other bytes than the measured buffers hold, the same for every checker.
        let startup = vec![77; self.startup.len()];
        let cycle = vec![77; self.cycle.len()];
        let said = LIBRARIES.map(|(check, _)| {
            let mut row = [0; library::ROW];
            let mut tables = (startup.clone(), cycle.clone());
            let code = check(policy, &self.words, &mut tables.0, &mut tables.1, &mut row);
            assert_eq!(code, 0, "a measured list is feasible under {policy:?}");
            (row[..7].to_vec(), tables)
        });
        for (plain, name) in PLAIN {
            let mut tables = (startup.clone(), cycle.clone());
            let answer = plain(&self.tasks, policy, &mut tables.0, &mut tables.1);
            for (numbers, others) in &said {
                assert_eq!(numbers[..], numbers_of(&answer), "{name}, {policy:?}");
                assert!(tables == *others, "tables of {name}, {policy:?}");
            }
        }
    }

    fn measure(&mut self, policy: Policy) -> Vec<Round> {
        let mut rounds = Vec::with_capacity(ROUNDS);
        for round in 0..WARM_UP_ROUNDS + ROUNDS {
            let libraries = LIBRARIES.map(|(check, _)| self.time_library(check, policy));
            let plain = PLAIN.map(|(plain, _)| self.time_plain(plain, policy));
            if round >= WARM_UP_ROUNDS {
                rounds.push((libraries, plain));
            }
        }
        rounds
    }

    /// Nanoseconds of one run of a library.
    fn time_library(&mut self, check: Check, policy: Policy) -> f64 {
        let mut row = [0; library::ROW];
        let start = Instant::now();
        let code = check(
            black_box(policy),
            black_box(&self.words),
            black_box(&mut self.startup),
            black_box(&mut self.cycle),
            black_box(&mut row),
        );
        black_box((code, row));
        start.elapsed().as_nanos() as f64
    }

    /// Nanoseconds of one run of a plain checker.
    fn time_plain(&mut self, plain: Plain, policy: Policy) -> f64 {
        let start = Instant::now();
        let answer = plain(
            black_box(&self.tasks),
            black_box(policy),
            black_box(&mut self.startup),
            black_box(&mut self.cycle),
        );
        black_box(answer);
        start.elapsed().as_nanos() as f64
    }
}

fn words_of(tasks: &[Task]) -> Vec<u64> {
    tasks
        .iter()
        .flat_map(|task| [task.offset, task.run, task.deadline, task.period])
        .collect()
}

/// The slots of a whole walk, the same under each policy that finds the list feasible.
fn slots_of(tasks: &[Task], startup: &mut [u8], cycle: &mut [u8]) -> u64 {
    match plain_passes(tasks, Policy::EarliestDeadlineFirst, startup, cycle) {
        Answer::Feasible { frame, .. } => frame.end(),
        other => panic!("a measured list is feasible, not {other:?}"),
    }
}

/// M, H, L and the counts of a feasible answer, as the library's row has them.
fn numbers_of(answer: &Answer) -> [u64; 7] {
    let Answer::Feasible { frame, counts } = answer else {
        panic!("a measured list is feasible, not {answer:?}");
    };
    [
        frame.largest_offset,
        frame.hyperperiod,
        frame.load,
        counts.idle_startup,
        counts.idle_cycle,
        counts.preemptions_startup,
        counts.preemptions_cycle,
    ]
}

fn median(values: impl Iterator<Item = f64>) -> f64 {
    let mut sorted: Vec<f64> = values.collect();
    sorted.sort_by(f64::total_cmp);
    sorted[sorted.len() / 2]
}
