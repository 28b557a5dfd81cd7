//! Runs of a program, each compared with what the reference writes: standard
//! output byte by byte, and standard error.

use crate::surveys::keep;
use reference::printed::Written;
use reference::random::Random;
use std::io::{ErrorKind, Write};
use std::path::Path;
use std::process::{Command, Stdio};

/// Takes a line on what differs.
pub type Tell = Box<dyn Fn(String) + Send>;

/// The runs so far.
pub struct Runs<'a> {
    /// For the survey that is given by `-f`, and those that differ.
    pub folder: &'a Path,
    /// The name of the file in which a survey is given. Runs beside each other have
    /// different ones.
    given: &'a str,
    pub tell: Tell,
    count: u64,
    mismatches: u64,
}

impl Runs<'_> {
    /// None yet.
    pub fn new<'a>(folder: &'a Path, given: &'a str, tell: Tell) -> Runs<'a> {
        Runs {
            folder,
            given,
            tell,
            count: 0,
            mismatches: 0,
        }
    }

    pub fn count(&self) -> u64 {
        self.count
    }

    /// How many of them differ.
    pub fn mismatches(&self) -> u64 {
        self.mismatches
    }

    /// Makes a survey ready for the runs that follow.
    pub fn give(&self, survey: &[u8]) {
        keep(self.folder, self.given, survey);
    }

    /// One run, with the survey that was given in its file or on standard input.
    pub fn run(
        &mut self,
        program: &Path,
        words: &[String],
        survey: &[u8],
        random: &mut Random,
        reference: impl Into<Written>,
    ) {
        let mut command = Command::new(program);
        let input = if random.one_in(2) {
            command.arg("-f").arg(self.folder.join(self.given));
            &[]
        } else {
            survey
        };
        let ours = written(command.args(words), input);
        let reference = reference.into();
        self.count += 1;
        if ours != reference {
            self.mismatches += 1;
            let output = difference("output", &ours.output, &reference.output);
            let error = difference("error", ours.error.as_bytes(), reference.error.as_bytes());
            (self.tell)(format!("MISMATCH: written by {command:?}"));
            output.into_iter().chain(error).for_each(&self.tell);
        }
    }

    /// Takes the given survey away.
    pub fn end(&self) {
        let given = self.folder.join(self.given);
        std::fs::remove_file(given).expect("the given survey can be removed");
    }
}

/// What a program writes, given this on its standard input.
fn written(command: &mut Command, input: &[u8]) -> Written {
    let mut running = command
        .stdin(Stdio::piped())
        .stdout(Stdio::piped())
        .stderr(Stdio::piped())
        .spawn()
        .expect("the program can be started");
    let mut pipe = running.stdin.take().expect("its input is piped");
    if let Err(error) = pipe.write_all(input) {
        // A survey that is too long is not read to its end.
        assert_eq!(error.kind(), ErrorKind::BrokenPipe, "{error}");
    }
    drop(pipe);
    let output = running.wait_with_output().expect("the program ends");
    assert!(
        output.status.success(),
        "the program fails: {}",
        output.status
    );
    Written {
        output: output.stdout,
        error: String::from_utf8_lossy(&output.stderr).into_owned(),
    }
}

/// Where two streams first differ, if they do: at a line of text, or at a byte.
fn difference(stream: &str, ours: &[u8], reference: &[u8]) -> Option<String> {
    if ours == reference {
        return None;
    }
    let texts = (std::str::from_utf8(ours), std::str::from_utf8(reference));
    let at = if let (Ok(ours), Ok(reference)) = texts {
        different_line(ours, reference)
    } else {
        let same = ours.iter().zip(reference).take_while(|(a, b)| a == b);
        format!(
            "from byte {} on: ours of {} bytes, reference of {}",
            same.count(),
            ours.len(),
            reference.len()
        )
    };
    Some(format!("  standard {stream}, {at}"))
}

/// The first line at which two texts differ, and they do.
fn different_line(ours: &str, reference: &str) -> String {
    let mut our_lines = ours.split('\n');
    let mut their_lines = reference.split('\n');
    let mut line = 1;
    loop {
        let (our, their) = (our_lines.next(), their_lines.next());
        if our != their || our.is_none() {
            return format!("line {line}: ours {our:?}, reference {their:?}");
        }
        line += 1;
    }
}
