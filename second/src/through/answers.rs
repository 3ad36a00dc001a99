//! The answers of a command, taken from its output one by one, none waited for longer than a limit.

use crate::paper::{MOST_HYPERPERIOD, MOST_OFFSET};
use std::collections::VecDeque;
use std::io::Read;
use std::sync::mpsc::{self, Receiver, RecvTimeoutError};
use std::thread;
use std::time::{Duration, Instant};

/// How long an answer, and the end after the last one, may take.
pub const LIMIT: Duration = Duration::from_secs(60);

/// No output is longer: three bytes for each slot of both tables, and less than 1,000 besides.
const MOST_OUTPUT: u64 = 3 * (MOST_OFFSET + 2 * MOST_HYPERPERIOD) + 1_000;

/// How many pieces of the output are held before they are asked for.
const MOST_PIECES: usize = 64;
const PIECE: usize = 1 << 16;

pub struct Answers {
    pieces: Receiver<Vec<u8>>,
    held: VecDeque<u8>,
}

impl Answers {
    /// Reads in a thread of its own: a read that never comes back must not hold up the run.
    pub fn of(mut output: impl Read + Send + 'static) -> Answers {
        let (sender, pieces) = mpsc::sync_channel(MOST_PIECES);
        thread::spawn(move || {
            let mut piece = vec![0; PIECE];
            while let Ok(length @ 1..) = output.read(&mut piece) {
                if sender.send(piece[..length].to_vec()).is_err() {
                    break;
                }
            }
        });
        Answers {
            pieces,
            held: VecDeque::new(),
        }
    }

    /// The next answer: four bytes with its length, low byte first, and as many bytes.
    pub fn next(&mut self) -> Result<Vec<u8>, String> {
        let until = Instant::now() + LIMIT;
        let length = self.take(4, until)?;
        let length = length
            .iter()
            .rev()
            .fold(0, |n, &byte| 256 * n + u64::from(byte));
        // Nothing behind such a length can be told apart.
        if length > MOST_OUTPUT {
            return Err(format!("an answer of {length} bytes, more than any output"));
        }
        self.take(length as usize, until)
    }

    fn take(&mut self, count: usize, until: Instant) -> Result<Vec<u8>, String> {
        while self.held.len() < count {
            let left = until.saturating_duration_since(Instant::now());
            match self.pieces.recv_timeout(left) {
                Ok(piece) => self.held.extend(piece),
                Err(RecvTimeoutError::Timeout) => {
                    return Err(format!(
                        "no whole answer within {} seconds",
                        LIMIT.as_secs()
                    ))
                }
                Err(RecvTimeoutError::Disconnected) => {
                    return Err("the output ends before its answer does".to_string())
                }
            }
        }
        Ok(self.held.drain(..count).collect())
    }

    /// Nothing may come behind the last answer but the end.
    pub fn end(&mut self) -> Result<(), String> {
        if self.held.is_empty() {
            match self.pieces.recv_timeout(LIMIT) {
                Ok(piece) => self.held.extend(piece),
                Err(RecvTimeoutError::Disconnected) => return Ok(()),
                Err(RecvTimeoutError::Timeout) => {
                    let limit = LIMIT.as_secs();
                    return Err(format!("no end of the output within {limit} seconds"));
                }
            }
        }
        let count = self.held.len();
        Err(format!("{count} bytes or more behind the last answer"))
    }
}

#[cfg(test)]
mod tests {
    use super::*;

    #[test]
    fn answers_are_taken_one_by_one_up_to_the_end() {
        let mut answers = Answers::of(&b"\x03\0\0\0one\0\0\0\0\x05\0\0\0three"[..]);
        assert_eq!(answers.next(), Ok(b"one".to_vec()));
        assert_eq!(answers.next(), Ok(Vec::new()));
        assert!(answers.end().is_err());
        let mut answers = Answers::of(&b"\x03\0\0\0one"[..]);
        assert_eq!(answers.next(), Ok(b"one".to_vec()));
        assert_eq!(answers.end(), Ok(()));
    }

    #[test]
    fn an_answer_that_is_cut_short_or_endless_is_none() {
        for output in [&b""[..], b"\x01\0\0", b"\x03\0\0\0on", b"\0\0\0\x01one"] {
            assert!(Answers::of(output).next().is_err(), "{output:?}");
        }
    }

    #[test]
    fn the_longest_length_is_read_low_byte_first() {
        let output = vec![7; 147_509];
        let bytes = [&147_509_u32.to_le_bytes(), &output[..]].concat();
        assert_eq!(Answers::of(std::io::Cursor::new(bytes)).next(), Ok(output));
    }
}
