//! The checker as C calls it: numbers for the card and the policy, and a row of words for the answer's values.

use crate::Task;

extern "C" {
    fn sholakpite_check(
        policy: u64,
        list: *const u64,
        list_len: usize,
        startup: *mut u8,
        startup_len: usize,
        cycle: *mut u8,
        cycle_len: usize,
        row: *mut u64,
        row_len: usize,
    ) -> u64;

    fn sholakpite_check_tasks(
        policy: u64,
        list: *const Task,
        list_len: usize,
        startup: *mut u8,
        startup_len: usize,
        cycle: *mut u8,
        cycle_len: usize,
        row: *mut u64,
        row_len: usize,
    ) -> u64;

    fn sholakpite_check_card(
        card: u64,
        policy: u64,
        list: *const u64,
        list_len: usize,
        startup: *mut u8,
        startup_len: usize,
        cycle: *mut u8,
        cycle_len: usize,
        row: *mut u64,
        row_len: usize,
    ) -> u64;

    fn sholakpite_check_tasks_card(
        card: u64,
        policy: u64,
        list: *const Task,
        list_len: usize,
        startup: *mut u8,
        startup_len: usize,
        cycle: *mut u8,
        cycle_len: usize,
        row: *mut u64,
        row_len: usize,
    ) -> u64;
}

/// Any of the four functions above, with the numbers in front, over its list.
macro_rules! call {
    ($entry:ident($($number:ident),+), $list:ident, $startup:ident, $cycle:ident, $row:ident) => {
        // A slice is never null, its memory is initialised, and the three that are written are borrowed by nobody else.
        // A `Task` is four 64-bit words in the paper's order, as it is behind the function.
        unsafe {
            $entry(
                $($number,)+
                $list.as_ptr(),
                $list.len(),
                $startup.as_mut_ptr(),
                $startup.len(),
                $cycle.as_mut_ptr(),
                $cycle.len(),
                $row.as_mut_ptr(),
                $row.len(),
            )
        }
    };
}

/// As C calls it: a list of words O C D T for each task, a policy by number, and a row of words for the answer's values.
pub fn check_words(
    policy: u64,
    list: &[u64],
    startup: &mut [u8],
    cycle: &mut [u8],
    row: &mut [u64],
) -> u64 {
    call!(sholakpite_check(policy), list, startup, cycle, row)
}

/// As C calls it with a list of task structs.
pub fn check_tasks(
    policy: u64,
    list: &[Task],
    startup: &mut [u8],
    cycle: &mut [u8],
    row: &mut [u64],
) -> u64 {
    call!(sholakpite_check_tasks(policy), list, startup, cycle, row)
}

/// `check_words` for a list that names its card, by number.
pub fn check_words_card(
    card: u64,
    policy: u64,
    list: &[u64],
    startup: &mut [u8],
    cycle: &mut [u8],
    row: &mut [u64],
) -> u64 {
    call!(
        sholakpite_check_card(card, policy),
        list,
        startup,
        cycle,
        row
    )
}

/// `check_tasks` for a list that names its card, by number.
pub fn check_tasks_card(
    card: u64,
    policy: u64,
    list: &[Task],
    startup: &mut [u8],
    cycle: &mut [u8],
    row: &mut [u64],
) -> u64 {
    call!(
        sholakpite_check_tasks_card(card, policy),
        list,
        startup,
        cycle,
        row
    )
}
