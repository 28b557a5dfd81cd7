//! Prints the table of a survey or its refusal.

use reference::given::{survey, take_file};
use reference::printed::Opened;

const USAGE: &str = "usage: reference_table [-f FILE]";

fn main() {
    let mut words: Vec<String> = std::env::args().skip(1).collect();
    let file = take_file(&mut words);
    if !words.is_empty() {
        eprintln!("{USAGE}");
        std::process::exit(2);
    }
    let survey = survey(file).expect("the survey can be read");
    let printed = Opened::new(&survey).table();
    print!("{}", printed.output);
    eprint!("{}", printed.error);
}
