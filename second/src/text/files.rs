//! The lists of lists/, each with what is expected of it; the longest output is not kept, only compared.

use std::fs;
use std::io;
use std::path::{Path, PathBuf};

const LONGEST: &str = "longest.txt";

pub struct File {
    pub name: String,
    pub text: Vec<u8>,
    expected: Option<Vec<u8>>,
}

impl File {
    /// Whether this is an output that is expected.
    pub fn allows(&self, output: &[u8]) -> bool {
        self.expected.as_ref().is_none_or(|bytes| bytes == output)
    }
}

fn folder() -> PathBuf {
    Path::new(env!("CARGO_MANIFEST_DIR")).join("../lists")
}

/// Every list, in the order of their names.
pub fn all() -> io::Result<Vec<File>> {
    let mut files = Vec::new();
    for entry in fs::read_dir(folder())? {
        let path = entry?.path();
        if path.is_file() {
            files.push(read(&path)?);
        }
    }
    files.sort_by(|a, b| a.name.cmp(&b.name));
    Ok(files)
}

fn read(path: &Path) -> io::Result<File> {
    let name = path.file_name().unwrap_or_default().to_string_lossy();
    let expected = folder().join("expected").join(&*name);
    Ok(File {
        text: fs::read(path)?,
        expected: (name != LONGEST).then(|| fs::read(expected)).transpose()?,
        name: name.into_owned(),
    })
}

#[cfg(test)]
mod tests {
    use super::*;
    use crate::text::report::output;

    #[test]
    fn what_is_expected_is_printed() {
        let files = all().expect("lists/ is read");
        let expected = fs::read_dir(folder().join("expected")).expect("lists/expected/ is there");
        assert_eq!(files.len(), expected.count() + 1);
        for file in files {
            assert!(file.allows(&output(&file.text).bytes), "{}", file.name);
        }
    }

    /// Ten tasks with one digit need ten slots of each hyperperiod at least, and all other slots have two digits.
    #[test]
    fn the_longest_output_has_two_digits_in_as_many_slots_as_there_can_be() {
        let text = fs::read(folder().join(LONGEST)).expect("the list is read");
        let output = String::from_utf8(output(&text).bytes).expect("an output is plain text");
        let lines: Vec<&str> = output.lines().collect();
        assert_eq!(
            lines[..4],
            ["feasible", "hyperperiod 16384", "load 16384", "idle 10 0"]
        );
        for (line, slots) in [(lines[5], 32_768), (lines[6], 16_384)] {
            let slots_of = |digits| {
                line.split(' ')
                    .skip(1)
                    .filter(move |slot| slot.len() == digits)
            };
            assert_eq!(slots_of(1).count(), slots * 10 / 16_384);
            assert_eq!(slots_of(2).count(), slots - slots * 10 / 16_384);
        }
        assert_eq!(output.len(), 147_509);
    }
}
