//! A log of plans that survives a power cut: a plan appended, and the newest one read.
//!
//! Whichever byte of an append the power fails after, what is left of the log reads as before, until the last new byte
//! is written.

extern "C" {
    fn sholakpite_append(
        log: *mut u8,
        log_len: usize,
        used: u64,
        startup: *const u8,
        startup_len: usize,
        cycle: *const u8,
        cycle_len: usize,
    ) -> u64;

    fn sholakpite_read(
        log: *const u8,
        log_len: usize,
        startup: *mut u8,
        startup_len: usize,
        cycle: *mut u8,
        cycle_len: usize,
        lengths: *mut u64,
        lengths_len: usize,
    ) -> u64;
}

/// The bytes of a block, and those of them that carry entries.
pub const BLOCK: usize = 64;
const CARRIED: usize = BLOCK - 1;

/// The entries that a part may have at most.
pub const LONGEST_PART: usize = 65_535;

/// The words that the two lengths need.
pub const LENGTHS: usize = 2;

/// What `sholakpite_append` answers where it writes nothing. Any other answer is a multiple of 64.
const NOT_APPENDED: u64 = 23;

/// What a log has to hand over.
#[derive(Clone, Copy, Debug, PartialEq, Eq)]
pub enum Read {
    /// The newest plan that was fully written: how many entries each part has.
    Plan { startup: usize, cycle: usize },
    /// 20: no plan was fully written.
    NoPlan,
    /// 21: the last trailer does not fit what stands before it, or its rest isn't 0.
    Damaged,
    /// 22: a buffer is shorter than its part.
    Short,
}

/// The bytes that a plan of these lengths takes with its trailer; None where a part is too long for any log.
pub const fn needs(startup: usize, cycle: usize) -> Option<usize> {
    if startup > LONGEST_PART || cycle > LONGEST_PART {
        return None;
    }
    Some(BLOCK * ((startup + cycle).div_ceil(CARRIED) + 1))
}

/// Appends a plan to the log that the first `used` bytes are, or all where `used` is above their number: how many are
/// used then. The log is first cut back to just after its last trailer; bytes past the new ones stay. None, with
/// nothing written, where plan and trailer don't fit the room left from there, or a part has more than 65,535 entries.
pub fn append(log: &mut [u8], used: usize, startup: &[u8], cycle: &[u8]) -> Option<usize> {
    // A slice is never null, its memory is initialised, and the one that is written is borrowed by nobody else.
    let answered = unsafe {
        sholakpite_append(
            log.as_mut_ptr(),
            log.len(),
            used as u64,
            startup.as_ptr(),
            startup.len(),
            cycle.as_ptr(),
            cycle.len(),
        )
    };
    (answered != NOT_APPENDED).then_some(answered as usize)
}

/// Reads the newest plan of a log, of which only the used bytes are lent. Bytes past a part stay; where no plan is
/// handed over, all do.
pub fn read(log: &[u8], startup: &mut [u8], cycle: &mut [u8]) -> Read {
    let mut lengths = [0; LENGTHS];
    match read_words(log, startup, cycle, &mut lengths) {
        0 => Read::Plan {
            startup: lengths[0] as usize,
            cycle: lengths[1] as usize,
        },
        20 => Read::NoPlan,
        21 => Read::Damaged,
        22 => Read::Short,
        code => unreachable!("a row of {LENGTHS} words was answered {code}"),
    }
}

/// As C calls it: 0, with both lengths in the front of `lengths`; or 20, 21 or 22; or 4, looked at first, where
/// `lengths` has fewer than two words.
pub fn read_words(log: &[u8], startup: &mut [u8], cycle: &mut [u8], lengths: &mut [u64]) -> u64 {
    // A slice is never null, its memory is initialised, and the three that are written are borrowed by nobody else.
    unsafe {
        sholakpite_read(
            log.as_ptr(),
            log.len(),
            startup.as_mut_ptr(),
            startup.len(),
            cycle.as_mut_ptr(),
            cycle.len(),
            lengths.as_mut_ptr(),
            lengths.len(),
        )
    }
}
