//! The libraries measured, called as C calls them: this tree's and, if one was built in, an earlier one.

use bench::plain::Policy;

pub use sholakpite::ROW;

/// Checks a list of offset, run, deadline and period words, four for each task.
pub type Check = fn(Policy, &[u64], &mut [u8], &mut [u8], &mut [u64; ROW]) -> u64;

#[cfg(not(before))]
pub const LIBRARIES: [(Check, &str); 1] = [(now, "now")];
#[cfg(before)]
pub const LIBRARIES: [(Check, &str); 2] = [(earlier::check, "before"), (now, "now")];

fn now(
    policy: Policy,
    list: &[u64],
    startup: &mut [u8],
    cycle: &mut [u8],
    row: &mut [u64; ROW],
) -> u64 {
    sholakpite::check_words(policy as u64, list, startup, cycle, row)
}

#[cfg(before)]
mod earlier {
    use super::{Policy, ROW};

    unsafe extern "C" {
        fn before_sholakpite_check(
            policy: u64,
            list: *const u64,
            list_len: usize,
            startup: *mut u8,
            startup_len: usize,
            cycle: *mut u8,
            cycle_len: usize,
            row: *mut u64,
            row_len: usize,
        ) -> u64;
    }

    pub fn check(
        policy: Policy,
        list: &[u64],
        startup: &mut [u8],
        cycle: &mut [u8],
        row: &mut [u64; ROW],
    ) -> u64 {
        // SAFETY: each pointer comes from a slice of the length beside it, and the slices don't overlap.
        unsafe {
            before_sholakpite_check(
                policy as u64,
                list.as_ptr(),
                list.len(),
                startup.as_mut_ptr(),
                startup.len(),
                cycle.as_mut_ptr(),
                cycle.len(),
                row.as_mut_ptr(),
                row.len(),
            )
        }
    }
}
