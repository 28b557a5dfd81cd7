//! Old surveys: the whole answer of the converter, every byte of its file, the
//! table of that file, the words for a refusal and for a header that no old survey
//! has, and what `tankconvert` writes.

use crate::run::Runs;
use crate::seen::{print_tally, Seen, Sentences};
use crate::surveys::{cells, keep};
use crate::words::Words;
use compare::calls::{self, ConvertedAnswer, TableAnswer, MOST_BYTES};
use reference::conversions::Conversion;
use reference::counted::Tally;
use reference::generate::{old_case, other_header};
use reference::headers::OtherHeader;
use reference::printed::conversion;
use reference::random::Random;
use reference::rows::MOST_ROWS;
use reference::words::of_old_header;
use reference::{convert, make_table_of, Format, Refusal, Table};
use std::path::Path;

/// The refusals that an old survey can bring: 8 is not among them, there is room
/// enough for every table.
const REFUSALS: [u32; 9] = [1, 2, 3, 4, 5, 6, 7, 9, 14];

/// How many sentences an old survey can bring: those of all surveys but the nine
/// on seams, and but the two of lookups.
const SENTENCES: usize = 26;

/// What was compared so far.
pub struct Comparison<'a> {
    program: &'a Path,
    runs: Runs<'a>,
    refusals: Seen,
    conversions: Tally<Conversion>,
    sentences: Sentences,
    /// The words for old surveys, and the headers of other lengths that were asked about.
    words: Words,
    headers: Tally<OtherHeader>,
    mismatches: u64,
}

impl Comparison<'_> {
    /// Nothing yet.
    pub fn new<'a>(program: &'a Path, folder: &'a Path) -> Comparison<'a> {
        Comparison {
            program,
            runs: Runs::new(
                folder,
                "given-old.survey",
                Box::new(|line| println!("{line}")),
            ),
            refusals: Seen::new(REFUSALS),
            conversions: Tally::default(),
            sentences: Sentences::new(SENTENCES),
            // One more than surveys bring: that of a header.
            words: Words::new(REFUSALS, SENTENCES + 1),
            headers: Tally::default(),
            mismatches: 0,
        }
    }

    /// Compares the first cases of a seed. The program is run for every refused
    /// survey, and for the accepted ones up to a number of them.
    pub fn compare(&mut self, seed: u64, cases: u64, most_accepted: u64) {
        let mut accepted = 0;
        for number in 0..cases {
            let old = old_case(seed, number);
            let before = self.mismatches();
            let reference = self.library(&old);
            self.words(&old, &reference, other_header(seed, number));
            accepted += u64::from(reference.refusal == 0);
            if reference.refusal != 0 || accepted <= most_accepted {
                self.program(&old, &mut Random::for_case(seed, number));
            }
            if self.mismatches() > before {
                println!("  of the old survey with seed {seed}, number {number}");
                keep(self.runs.folder, &format!("old-{seed}-{number}"), &old);
            }
        }
        self.runs.end();
    }

    /// How many comparisons and runs differ.
    pub fn mismatches(&self) -> u64 {
        self.mismatches + self.runs.mismatches()
    }

    /// Prints what was seen, and says whether it was often enough.
    pub fn print(&self) -> bool {
        let refusals = self.refusals.print("old surveys");
        let conversions = print_tally("old surveys by what is converted", &self.conversions);
        let sentences = self.sentences.print("sentences for old surveys");
        println!("runs of the converter: {}", self.runs.count());
        let words = self.words.print("old surveys");
        let headers = print_tally("words for headers of other lengths", &self.headers);
        refusals && conversions && sentences && words && headers
    }

    /// The library's converter, and the table of the file that it gives. Returns
    /// the reference's answer.
    fn library(&mut self, old: &[u8]) -> ConvertedAnswer {
        let ours = calls::convert_48(old);
        let reference = by_reference(old);
        self.refusals.add(reference.refusal);
        self.conversions
            .add(Conversion::of_survey(old, reference.refusal));
        if ours != reference {
            self.mismatches += 1;
            report(&ours, &reference);
        } else if reference.refusal == 0 {
            self.table(old, &ours.file[..ours.length as usize]);
        }
        reference
    }

    /// "the rows of an accepted file stay equal": the library's table of the
    /// converted file is the reference's of the old one, in a table of the
    /// largest row count, unchanged after the rows.
    fn table(&mut self, old: &[u8], converted: &[u8]) {
        let mut lent = cells(MOST_ROWS);
        let answer = calls::table(converted, &mut lent);
        let table = make_table_of(old, Format::Header48, MOST_ROWS)
            .expect("a survey that is converted has a table");
        if answer != answer_of(&table) || lent != filled(&table) {
            self.mismatches += 1;
            println!("MISMATCH: the table of a converted survey");
            println!("  ours      {answer:?}");
            println!("  reference {:?}", answer_of(&table));
        }
    }

    /// The words for an old survey, given the reference's answer, and those for its
    /// bytes with a header of another length.
    fn words(&mut self, old: &[u8], reference: &ConvertedAnswer, other: u32) {
        let format = Format::Header48;
        let refusal = (reference.refusal != 0).then_some(Refusal {
            number: reference.refusal,
            place: reference.place,
        });
        let ours = calls::convert_words(old, format.header_bytes() as u32);
        let same = self.words.same(&ours, old, format, refusal);
        self.mismatches += u64::from(!same);

        let ours = calls::convert_words(old, other);
        let sentence = of_old_header(other).expect("no old survey has this header");
        let same = self.words.same_sentence(&ours, &sentence);
        self.headers.add([OtherHeader::of_bytes(other)]);
        self.mismatches += u64::from(!same);
    }

    /// What the program writes.
    fn program(&mut self, old: &[u8], random: &mut Random) {
        let reference = conversion(old);
        self.sentences.add(&reference.error);
        self.runs.give(old);
        let from = Format::Header48.header_bytes().to_string();
        self.runs.run(self.program, &[from], old, random, reference);
    }
}

fn by_reference(old: &[u8]) -> ConvertedAnswer {
    let mut answer = ConvertedAnswer {
        refusal: 0,
        place: 0,
        length: 0,
        file: [0; MOST_BYTES],
    };
    match convert(old) {
        Ok(converted) => {
            answer.length = converted.len() as u32;
            answer.file[..converted.len()].copy_from_slice(&converted);
        }
        Err(refusal) => {
            answer.refusal = refusal.number;
            answer.place = refusal.place;
        }
    }
    answer
}

fn answer_of(table: &Table) -> TableAnswer {
    TableAnswer {
        refusal: 0,
        place: 0,
        d1: table.d1,
        d2: table.d2,
        rows: table.rows.len() as u32,
    }
}

/// The lent cells once they hold a table.
fn filled(table: &Table) -> Vec<u32> {
    let mut lent = cells(MOST_ROWS);
    lent[..table.rows.len()].copy_from_slice(&table.rows);
    lent
}

fn report(ours: &ConvertedAnswer, reference: &ConvertedAnswer) {
    println!("MISMATCH: an old survey converted");
    for (name, answer) in [("ours     ", ours), ("reference", reference)] {
        println!(
            "  {name} refusal {} place {} length {}",
            answer.refusal, answer.place, answer.length
        );
    }
    let bytes = ours.file.iter().zip(&reference.file);
    if let Some((at, (our, their))) = bytes.enumerate().find(|(_, (a, b))| a != b) {
        println!("  first at byte {at}: ours {our}, reference {their}");
    }
}
