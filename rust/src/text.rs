//! A list as text: the answer that is printed for it, and the writer of such texts.

use crate::{Card, Policy, Task};

extern "C" {
    fn sholakpite_answer(input: *const u8, input_len: usize, out: *mut u8, out_len: usize) -> u64;

    fn sholakpite_write(
        policy: u64,
        list: *const u64,
        list_len: usize,
        out: *mut u8,
        out_len: usize,
    ) -> u64;

    fn sholakpite_write_card(
        card: u64,
        policy: u64,
        list: *const u64,
        list_len: usize,
        out: *mut u8,
        out_len: usize,
    ) -> u64;
}

/// The bytes that a text may have; a longer one is answered `unread 0`.
pub const LONGEST_INPUT: usize = 4096;

/// Every output fits into this many bytes.
pub const LONGEST_OUTPUT: usize = 147_547;

/// The words of one task.
const TASK: usize = 4;

/// What the writer answers where it writes nothing. No text is as short as 4 bytes, or has 13.
const NOT_UNDERSTOOD: u64 = 4;
const REFUSED: u64 = 13;

/// The whole output for a text: how many bytes of `out` it takes. Later bytes stay. None, with nothing written, where
/// `out` is shorter than the output.
pub fn answer(input: &[u8], out: &mut [u8]) -> Option<usize> {
    // A slice is never null, its memory is initialised, and the one that is written is borrowed by nobody else.
    let length =
        unsafe { sholakpite_answer(input.as_ptr(), input.len(), out.as_mut_ptr(), out.len()) };
    // No output is empty.
    (length > 0).then_some(length as usize)
}

/// Writes the text of a policy and a list for a wide card: how many bytes of `out` it takes. Later bytes stay. None, with
/// nothing written, where the list is refused 13: it has more than 16 tasks, a number is above 999,999, or `out` is
/// shorter than the text.
pub fn write(policy: Policy, list: &[Task], out: &mut [u8]) -> Option<usize> {
    written(write_words(policy as u64, words(list), out))
}

/// Writes the text of a policy and a list for the card that it names.
pub fn write_card(card: Card, policy: Policy, list: &[Task], out: &mut [u8]) -> Option<usize> {
    written(write_words_card(
        card as u64,
        policy as u64,
        words(list),
        out,
    ))
}

fn written(answered: u64) -> Option<usize> {
    match answered {
        REFUSED => None,
        NOT_UNDERSTOOD => {
            unreachable!("a known card and policy and whole tasks were not understood")
        }
        length => Some(length as usize),
    }
}

/// Either writer, with the numbers in front.
macro_rules! call {
    ($entry:ident($($number:ident),+), $list:ident, $out:ident) => {
        // As above.
        unsafe {
            $entry(
                $($number,)+
                $list.as_ptr(),
                $list.len(),
                $out.as_mut_ptr(),
                $out.len(),
            )
        }
    };
}

/// As C calls it: a policy by number and a list of words O C D T for each task. The text's length; or 13; or 4, looked
/// at first, where the policy is above 3 or the words are not a multiple of 4.
pub fn write_words(policy: u64, list: &[u64], out: &mut [u8]) -> u64 {
    call!(sholakpite_write(policy), list, out)
}

/// `write_words` for a list that names its card, by number; 4 also where the card is above 1.
pub fn write_words_card(card: u64, policy: u64, list: &[u64], out: &mut [u8]) -> u64 {
    call!(sholakpite_write_card(card, policy), list, out)
}

fn words(list: &[Task]) -> &[u64] {
    // A `Task` is four 64-bit words in the paper's order, with nothing between them.
    unsafe { std::slice::from_raw_parts(list.as_ptr().cast(), TASK * list.len()) }
}
