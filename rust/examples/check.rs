//! List b of document 01, checked from Rust. What it prints is compared with examples/list-b.txt.

use sholakpite::{check, Answer, Policy, Task, IDLE};

fn print_table(name: &str, table: &[u8]) {
    print!("{name}");
    for &entry in table {
        if entry == IDLE {
            print!(" -");
        } else {
            print!(" {entry}");
        }
    }
    println!();
}

fn main() {
    let list = [
        Task {
            offset: 0,
            run: 2,
            deadline: 4,
            period: 4,
        },
        Task {
            offset: 1,
            run: 1,
            deadline: 2,
            period: 4,
        },
    ];
    let mut startup = [99; 16];
    let mut cycle = [99; 16];
    let Answer::Feasible(plan) = check(
        &list,
        Policy::EarliestDeadlineFirst,
        &mut startup,
        &mut cycle,
    ) else {
        panic!("not feasible");
    };
    println!(
        "feasible M {} H {} L {}",
        plan.latest, plan.hyperperiod, plan.load
    );
    print_table(
        "startup",
        &startup[..(plan.latest + plan.hyperperiod) as usize],
    );
    print_table("cycle", &cycle[..plan.hyperperiod as usize]);
    println!("idle {} {}", plan.startup_idle, plan.cycle_idle);
    println!(
        "preemptions {} {}",
        plan.startup_preemptions, plan.cycle_preemptions
    );
}
