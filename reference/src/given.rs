//! Where a program finds its survey: `-f FILE`, or standard input.

use std::io::{Read, Result};

/// Takes `-f FILE` off the front of a program's words, if it stands there.
pub fn take_file(words: &mut Vec<String>) -> Option<String> {
    if words.len() >= 2 && words[0] == "-f" {
        words.drain(..2).nth(1)
    } else {
        None
    }
}

/// The bytes of that file, or of standard input.
pub fn survey(file: Option<String>) -> Result<Vec<u8>> {
    match file {
        Some(path) => std::fs::read(path),
        None => {
            let mut survey = Vec::new();
            std::io::stdin().read_to_end(&mut survey)?;
            Ok(survey)
        }
    }
}
