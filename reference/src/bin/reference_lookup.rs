//! Makes the table of a survey and looks figures up: the litres at dip heights,
//! the lowest dip heights for volumes, or the litres delivered.

use reference::given::{survey, take_file};
use reference::printed::{Asked, Opened};
use reference::text::hundredths;

const USAGE: &str = "usage:
  reference_lookup [-f FILE] litres MM ..
  reference_lookup [-f FILE] height LITRES ..
  reference_lookup [-f FILE] delivered BEFORE AFTER";

fn main() {
    let mut words: Vec<String> = std::env::args().skip(1).collect();
    let file = take_file(&mut words);
    let Some(asked) = asked(&words) else {
        eprintln!("{USAGE}");
        std::process::exit(2);
    };
    let survey = survey(file).expect("the survey can be read");
    let printed = Opened::new(&survey).lookup(&asked);
    print!("{}", printed.output);
    eprint!("{}", printed.error);
}

/// What the words after `-f FILE` ask for.
fn asked(words: &[String]) -> Option<Asked> {
    let (what, figures) = words.split_first()?;
    let figures: Option<Vec<u32>> = figures.iter().map(|figure| hundredths(figure)).collect();
    let figures = figures?;
    match (what.as_str(), figures.as_slice()) {
        ("litres", [_, ..]) => Some(Asked::LitresAt(figures)),
        ("height", [_, ..]) => Some(Asked::HeightFor(figures)),
        ("delivered", &[before, after]) => Some(Asked::Delivered { before, after }),
        _ => None,
    }
}
