//! The library's output for a text, in buffers of several lengths, compared with our own.

use crate::linked::compare::place;
use crate::linked::lent::{lend, Lent};
use crate::random::Random;
use crate::text::report::Output;

/// What differs for this text, in any of the buffers.
pub fn compare(input: &[u8], output: &Output, random: &mut Random) -> Vec<String> {
    let mut found = output.broken();
    for room in rooms(random, output.bytes.len()) {
        let lines = compare_in(input, &output.bytes, room, random);
        found.extend(lines.iter().map(|line| format!("room {room}: {line}")));
    }
    found
}

/// Lengths of a lent buffer: exact, longer, one short, any shorter one, empty.
pub fn rooms(random: &mut Random, needed: usize) -> [usize; 5] {
    let longer = needed + random.between(1, 300) as usize;
    [
        needed,
        longer,
        needed.saturating_sub(1),
        random.index(needed.max(1)),
        0,
    ]
}

fn compare_in(input: &[u8], output: &[u8], room: usize, random: &mut Random) -> Vec<String> {
    let lent_input = Lent::holding(random, input, Random::byte);
    let input_before = lent_input.clone();
    let mut out = lend(random, room, Random::byte);
    let (expected, out_expected) = by_second(output, &out);
    let length = sholakpite::answer(lent_input.part(), out.part_mut());
    let lengths = format!("lengths: second {expected:?}, library {length:?}");
    let lines = [
        Some(lengths).filter(|_| expected != length),
        place("second", "output byte", &out_expected, &out),
        place("second", "input byte", &input_before, &lent_input),
    ];
    lines.into_iter().flatten().collect()
}

/// How many bytes are written, and the buffer after it: nothing where the output does not fit.
fn by_second(output: &[u8], before: &Lent<u8>) -> (Option<usize>, Lent<u8>) {
    let mut after = before.clone();
    if after.len < output.len() {
        return (None, after);
    }
    after.part_mut()[..output.len()].copy_from_slice(output);
    (Some(output.len()), after)
}
