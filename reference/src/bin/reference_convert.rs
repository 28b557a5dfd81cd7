//! Converts a survey of an older format to today's, or prints its refusal.

use reference::given::{survey, take_file};
use reference::printed::conversion;
use reference::Format;
use std::io::Write;

fn main() {
    let mut words: Vec<String> = std::env::args().skip(1).collect();
    let file = take_file(&mut words);
    if words != [from()] {
        eprintln!("{}", usage());
        std::process::exit(2);
    }
    let survey = survey(file).expect("the survey can be read");
    let written = conversion(&survey);
    std::io::stdout()
        .write_all(&written.output)
        .expect("standard output can be written");
    eprint!("{}", written.error);
}

/// The only FROM there is.
fn from() -> String {
    Format::Header48.header_bytes().to_string()
}

fn usage() -> String {
    format!(
        "usage: reference_convert [-f FILE] FROM
  FROM is the length of the survey's header in bytes: {}",
        from()
    )
}
