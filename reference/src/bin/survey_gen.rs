//! Writes generated cases and counts their refusals.

use reference::caps::Cap;
use reference::conversions::Conversion;
use reference::counted::{Counted, Tally};
use reference::generate::lookups::{lookup_case, Asked};
use reference::generate::{case, old_case, Case};
use reference::gross::Tank;
use reference::halves::falls::Fall;
use reference::halves::lookups::Looked;
use reference::halves::Rounded;
use reference::misses::Miss;
use reference::rises::Rise;
use reference::table::{lay_out, table_of_tank};
use reference::{convert, make_table, Format, Refusal};
use std::io::Write;

const USAGE: &str = "usage:
  survey_gen survey SEED K         the bytes of survey K
  survey_gen table SEED K          the length of the table lent for survey K
  survey_gen answer SEED K         the answer to case K: accepted D1 D2 ROWS, or refused N P
  survey_gen count SEED N          how often each refusal comes in the first N cases
  survey_gen misses SEED N         how often their course lengths miss L1, and by how much
  survey_gen caps SEED N           how often they have spherical caps, and of what kind
  survey_gen rises SEED N          how often they try an edge of the rise over seams
  survey_gen halves SEED N         how often something in them is an exact half, and where it goes
  survey_gen falls SEED N          how often it hangs on a half whether a row of them falls
  survey_gen old SEED K            the bytes of old survey K, for the converter
  survey_gen old-count SEED N      how often each refusal comes in the first N old surveys
  survey_gen conversions SEED N    how often they try an edge of the converter
  survey_gen lookup SEED K         lookup case K: DH STEP litres|height ASKED, then the rows
  survey_gen lookup-answer SEED K  the answer to lookup case K, in whole u or v
  survey_gen lookup-count SEED N   how often each refusal comes in the first N lookup cases
  survey_gen lookup-halves SEED N  how often an exact half decides their answers";

fn main() {
    let words: Vec<String> = std::env::args().skip(1).collect();
    let numbers: Vec<u64> = words
        .iter()
        .skip(1)
        .filter_map(|word| word.parse().ok())
        .collect();
    let (Some(what), &[seed, number]) = (words.first(), numbers.as_slice()) else {
        eprintln!("{USAGE}");
        std::process::exit(2);
    };
    match what.as_str() {
        "survey" => write(&case(seed, number).survey),
        "table" => println!("{}", case(seed, number).table_len),
        "answer" => println!("{}", answer(&case(seed, number))),
        "count" => count(number, |k| refusal(&case(seed, k))),
        "misses" => count_all(number, |k| Miss::of_survey(&case(seed, k).survey)),
        "caps" => count_all(number, |k| {
            let case = case(seed, k);
            Cap::of_survey(&case.survey, number_of(refusal(&case)))
        }),
        "rises" => count_all(number, |k| {
            let case = case(seed, k);
            Rise::of_survey(&case.survey, refusal(&case))
        }),
        "halves" => count_all(number, |k| {
            let tank = accepted(&case(seed, k));
            tank.iter().flat_map(Rounded::of_tank).collect::<Vec<_>>()
        }),
        "falls" => count_all(number, |k| {
            let tank = laid_out(&case(seed, k)).ok()?;
            Fall::of_tank(&tank)
        }),
        "old" => write(&old_case(seed, number)),
        "old-count" => count(number, |k| convert(&old_case(seed, k)).err()),
        "conversions" => count_all(number, |k| {
            let old = old_case(seed, k);
            Conversion::of_survey(&old, number_of(convert(&old).err()))
        }),
        "lookup" => println!("{}", lookup(seed, number)),
        "lookup-answer" => println!("{}", lookup_answer(seed, number)),
        "lookup-count" => count(number, |k| lookup_case(seed, k).answer().err()),
        "lookup-halves" => count_all(number, |k| {
            let case = lookup_case(seed, k);
            let figure = case.answer().ok();
            figure.map_or(Vec::new(), |figure| Looked::of_lookup(&case, figure))
        }),
        _ => {
            eprintln!("{USAGE}");
            std::process::exit(2);
        }
    }
}

fn write(survey: &[u8]) {
    std::io::stdout()
        .write_all(survey)
        .expect("standard output can be written");
}

fn refusal(case: &Case) -> Option<Refusal> {
    make_table(&case.survey, case.table_len).err()
}

fn laid_out(case: &Case) -> Result<Tank, Refusal> {
    lay_out(&case.survey, Format::TODAY, case.table_len)
}

/// The tank of which a table is made.
fn accepted(case: &Case) -> Option<Tank> {
    let tank = laid_out(case).ok()?;
    table_of_tank(&tank).is_ok().then_some(tank)
}

/// A refusal's number, 0 for none.
fn number_of(refusal: Option<Refusal>) -> u32 {
    refusal.map_or(0, |refusal| refusal.number)
}

fn refused(refusal: Refusal) -> String {
    format!("refused {} {}", refusal.number, refusal.place)
}

fn answer(case: &Case) -> String {
    match make_table(&case.survey, case.table_len) {
        Ok(table) => format!("accepted {} {} {}", table.d1, table.d2, table.rows.len()),
        Err(refusal) => refused(refusal),
    }
}

fn lookup(seed: u64, number: u64) -> String {
    let case = lookup_case(seed, number);
    let (what, asked) = match case.asked {
        Asked::Litres(height) => ("litres", height),
        Asked::Height(volume) => ("height", volume),
    };
    let rows: Vec<String> = case.table.iter().map(|row| row.to_string()).collect();
    format!(
        "{} {} {} {}\n{}",
        case.dh,
        case.step,
        what,
        asked,
        rows.join(" ")
    )
}

fn lookup_answer(seed: u64, number: u64) -> String {
    match lookup_case(seed, number).answer() {
        Ok(figure) => figure.to_string(),
        Err(refusal) => refused(refusal),
    }
}

/// Prints how often each thing is tried in cases.
fn count_all<T: Counted, I: IntoIterator<Item = T>>(cases: u64, tried_in: impl Fn(u64) -> I) {
    let mut tried = Tally::default();
    for k in 0..cases {
        tried.add(tried_in(k));
    }
    for (name, count) in tried.counts() {
        println!("{name}: {count}");
    }
}

/// Prints how many of the cases are accepted and how many meet each refusal.
fn count(cases: u64, refusal_of: impl Fn(u64) -> Option<Refusal>) {
    let mut counts = [0u64; 15];
    for k in 0..cases {
        counts[number_of(refusal_of(k)) as usize] += 1;
    }
    println!("accepted {}", counts[0]);
    for (number, count) in counts.iter().enumerate().skip(1) {
        println!("refused {number}: {count}");
    }
}
