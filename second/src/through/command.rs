//! A command that answers requests over its standard input and output.

use super::answers::{Answers, LIMIT};
use std::io::Write;
use std::process::{Child, Command, ExitStatus, Stdio};
use std::sync::mpsc::{self, Receiver};
use std::thread::{self, JoinHandle};
use std::time::{Duration, Instant};

/// How far the requests may be ahead of the answers.
const MOST_AHEAD: usize = 1_000;

/// How long a command that failed may take to end by itself.
const SOON: Duration = Duration::from_secs(1);

pub struct Started<T> {
    child: Child,
    answers: Answers,
    /// What was asked, in the order of the requests.
    asked: Receiver<T>,
    writer: JoinHandle<()>,
}

impl<T: Send + 'static> Started<T> {
    /// Starts the command. A thread of its own writes the requests, and the end behind them, so that no pipe blocks.
    pub fn start(
        command: &[String],
        requests: impl Iterator<Item = (Vec<u8>, T)> + Send + 'static,
        end: Vec<u8>,
    ) -> Result<Started<T>, String> {
        let (name, words) = command.split_first().ok_or("there is no command")?;
        let mut child = Command::new(name)
            .args(words)
            .stdin(Stdio::piped())
            .stdout(Stdio::piped())
            .spawn()
            .map_err(|why| format!("{name} is not started: {why}"))?;
        let mut input = child.stdin.take().expect("it is a pipe");
        let answers = Answers::of(child.stdout.take().expect("it is a pipe"));
        let (sender, asked) = mpsc::sync_channel(MOST_AHEAD);
        let writer = thread::spawn(move || {
            for (frame, text) in requests {
                // Told before it is written: the answer to a request that can't be written is waited for, and missed.
                if sender.send(text).is_err() || input.write_all(&frame).is_err() {
                    return;
                }
            }
            // A command that has ended by now needs no end.
            let _ = input.write_all(&end);
        });
        Ok(Started {
            child,
            answers,
            asked,
            writer,
        })
    }

    /// Goes through all that was asked, up to the end of the output and the command's own.
    pub fn each(
        mut self,
        mut answered: impl FnMut(T, &mut Answers) -> Result<(), String>,
    ) -> Result<(), String> {
        let mut run = || {
            for asked in &self.asked {
                answered(asked, &mut self.answers)?;
            }
            self.answers.end()
        };
        match run() {
            Ok(()) => self.end(),
            Err(why) => Err(self.give_up(&why)),
        }
    }

    fn end(mut self) -> Result<(), String> {
        let Some(status) = self.exit_within(LIMIT) else {
            let limit = LIMIT.as_secs();
            let why =
                format!("its output is at its end, but not the command after {limit} seconds");
            return Err(self.give_up(&why));
        };
        if !status.success() {
            return Err(format!(
                "all is answered, but the command ended with {status}"
            ));
        }
        // Were it not to make all texts, those that are missing would not be waited for.
        self.writer
            .join()
            .map_err(|_| "not all texts were made".to_string())
    }

    /// Why it is given up, and what became of the command.
    fn give_up(&mut self, why: &str) -> String {
        match self.exit_within(SOON) {
            Some(status) => format!("{why}; the command ended with {status}"),
            None => {
                // Either fails only where the command has ended in between.
                let _ = self.child.kill();
                let _ = self.child.wait();
                format!("{why}; the command was stopped")
            }
        }
    }

    fn exit_within(&mut self, limit: Duration) -> Option<ExitStatus> {
        let until = Instant::now() + limit;
        loop {
            match self.child.try_wait() {
                Ok(Some(status)) => return Some(status),
                _ if Instant::now() >= until => return None,
                _ => thread::sleep(Duration::from_millis(10)),
            }
        }
    }
}

#[cfg(test)]
mod tests {
    use super::*;

    /// Three requests of one byte each, and a byte more, to a shell that runs these words.
    fn asked(words: &str) -> Result<Vec<Vec<u8>>, String> {
        let command = ["sh", "-c", words].map(String::from);
        let requests = (0..3).map(|number| (vec![b'0' + number], ()));
        let mut answers = Vec::new();
        Started::start(&command, requests, b"x".to_vec())?.each(|(), all| {
            answers.push(all.next()?);
            Ok(())
        })?;
        Ok(answers)
    }

    const THREE: &str = "printf '\\1\\0\\0\\0a\\0\\0\\0\\0\\2\\0\\0\\0bc'";

    #[test]
    fn a_command_that_reads_all_and_answers_all_has_its_answers() {
        let answers = [&b"a"[..], b"", b"bc"].map(<[u8]>::to_vec);
        let words = format!("test \"$(cat)\" = 012x && {THREE}");
        assert_eq!(asked(&words), Ok(answers.to_vec()));
    }

    #[test]
    fn a_command_that_ends_in_another_way_fails() {
        let more = format!("cat >/dev/null; {THREE}; printf a");
        let status = format!("cat >/dev/null; {THREE}; exit 3");
        let short = "cat >/dev/null; printf '\\1\\0\\0\\0a\\0\\0\\0\\0\\2\\0\\0\\0b'";
        for words in [&more, &status, short, "cat", "cat >/dev/null", "exit 0"] {
            assert!(asked(words).is_err(), "{words}");
        }
        assert!(Started::start(&[], [(vec![], ())].into_iter(), vec![]).is_err());
        let unknown = ["/no/such/command".to_string()];
        assert!(Started::start(&unknown, [(vec![], ())].into_iter(), vec![]).is_err());
    }
}
