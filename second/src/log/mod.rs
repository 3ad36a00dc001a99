//! A log of plans: a writer and a reader of our own, and logs of every kind.

pub mod made;
pub mod reader;
pub mod spoil;
pub mod writer;

/// The bytes of a block, and those of them that carry entries.
pub const BLOCK: usize = 64;
pub const CARRIED: usize = BLOCK - 1;

/// The first byte of a plan's block, and of a trailer.
pub const PLAN: u8 = 1;
pub const TRAILER: u8 = 2;

/// The most that a trailer's 16 bits can say.
pub const LONGEST_PART: usize = 65_535;

#[derive(Clone, PartialEq, Debug)]
pub struct Plan {
    pub startup: Vec<u8>,
    pub cycle: Vec<u8>,
}

/// A buffer, and how many of its bytes are the log.
#[derive(Clone)]
pub struct Log {
    pub buffer: Vec<u8>,
    pub used: usize,
}

impl Log {
    pub fn part(&self) -> &[u8] {
        &self.buffer[..self.used]
    }
}

/// Which whole block is the last trailer, whatever its rest holds: each block is looked at, from the first on.
pub fn last_trailer(log: &[u8]) -> Option<usize> {
    let mut last = None;
    for (at, block) in log.chunks_exact(BLOCK).enumerate() {
        if block[0] == TRAILER {
            last = Some(at);
        }
    }
    last
}

/// These bytes, and 0 up to the block's end.
#[cfg(test)]
fn padded(front: &[u8]) -> Vec<u8> {
    [front, &vec![0; 64 - front.len()]].concat()
}
