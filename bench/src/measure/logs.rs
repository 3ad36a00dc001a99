//! Plans appended to a log and read from it, against a copy of as many bytes.

use super::{ROUNDS, WARM_UP_ROUNDS, median};
use sholakpite::log::{LONGEST_PART, Read, append, needs, read};
use std::hint::black_box;
use std::time::Instant;

/// Entries of each part: a quarter of the longest, a half, and the longest.
const PARTS: [usize; 3] = [LONGEST_PART / 4 + 1, LONGEST_PART / 2 + 1, LONGEST_PART];

/// A copy takes little longer than the clock is read, so each is timed over so many calls.
const CALLS: u32 = 8;

type Call = fn(&mut Bench);

/// What is measured, and the name of each.
const MEASURED: [(Call, &str); 3] = [
    (Bench::append, "append"),
    (Bench::read, "read"),
    (Bench::read_torn, "read-torn"),
];

/// A plan, buffers for it, and logs: one to append to, one to read, one with the plan twice but for its last byte.
struct Bench {
    plan: [Vec<u8>; 2],
    buffers: [Vec<u8>; 2],
    log: Vec<u8>,
    written: Vec<u8>,
    torn: Vec<u8>,
}

/// Nanoseconds of one round: each call measured, then the copy.
type Round = ([f64; MEASURED.len()], f64);

pub fn all() {
    println!("note logs: bytes of a plan with its trailer, time of {CALLS} calls in each round");
    println!("note logs: read-torn steps back over a plan that lacks its last byte, then reads");
    for part in PARTS {
        let mut bench = Bench::new(part);
        bench.assert_calls();
        let rounds = bench.measure();
        for (at, (_, name)) in MEASURED.iter().enumerate() {
            bench.print_row(name, &rounds, at);
        }
    }
}

impl Bench {
    fn new(part: usize) -> Bench {
        let bytes = needs(part, part).expect("a part is not too long");
        // No buffer is all 0, so that each page of it is there.
        let plan = [1, 2].map(|first| (0..part).map(|at| (at % 251) as u8 + first).collect());
        let mut torn = vec![1; 2 * bytes];
        append_to(&mut torn, 0, &plan);
        append_to(&mut torn, bytes, &plan);
        Bench {
            plan,
            buffers: [vec![1; part], vec![1; part]],
            log: vec![1; bytes],
            written: torn[..bytes].to_vec(),
            torn: torn[..2 * bytes - 1].to_vec(),
        }
    }

    /// Each call does what it is measured for.
    fn assert_calls(&mut self) {
        for read in [Bench::read, Bench::read_torn] {
            self.buffers.iter_mut().for_each(|buffer| buffer.fill(1));
            read(self);
            assert!(self.buffers == self.plan, "what is read is the plan");
        }
        self.append();
        assert!(self.log == self.written, "what is appended is the plan");
    }

    fn append(&mut self) {
        append_to(black_box(&mut self.log), 0, black_box(&self.plan));
    }

    fn read(&mut self) {
        read_from(black_box(&self.written), black_box(&mut self.buffers));
    }

    fn read_torn(&mut self) {
        read_from(black_box(&self.torn), black_box(&mut self.buffers));
    }

    fn copy(&mut self) {
        black_box(&mut self.log).copy_from_slice(black_box(&self.written));
    }

    fn measure(&mut self) -> Vec<Round> {
        let mut rounds = Vec::with_capacity(ROUNDS);
        for round in 0..WARM_UP_ROUNDS + ROUNDS {
            let measured = MEASURED.map(|(call, _)| self.time(call));
            let copy = self.time(Bench::copy);
            if round >= WARM_UP_ROUNDS {
                rounds.push((measured, copy));
            }
        }
        rounds
    }

    /// Nanoseconds of one call.
    fn time(&mut self, call: Call) -> f64 {
        let start = Instant::now();
        for _ in 0..CALLS {
            call(self);
        }
        start.elapsed().as_nanos() as f64 / f64::from(CALLS)
    }

    /// The medians over all rounds, as one line of the table.
    fn print_row(&self, name: &str, rounds: &[Round], at: usize) {
        let bytes = self.written.len();
        println!(
            "log {bytes} {name} now copy {:.4} {:.4} {:.4}",
            median(rounds.iter().map(|(calls, copy)| calls[at] / copy)),
            median(rounds.iter().map(|(calls, _)| calls[at] / bytes as f64)),
            median(rounds.iter().map(|(_, copy)| copy / bytes as f64))
        );
    }
}

fn append_to(log: &mut [u8], used: usize, [startup, cycle]: &[Vec<u8>; 2]) {
    let end = append(log, used, startup, cycle);
    assert!(end.is_some(), "there is room for the plan");
}

fn read_from(log: &[u8], [startup, cycle]: &mut [Vec<u8>; 2]) {
    let handed = read(log, startup, cycle);
    assert!(matches!(handed, Read::Plan { .. }), "{handed:?}");
}
