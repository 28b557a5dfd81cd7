//! What the programs print, on standard output and on standard error.

use crate::convert::convert;
use crate::format::Format;
use crate::lookup::{delivered, height_for_volume, litres_at_height};
use crate::refusal::Refusal;
use crate::rows::{row_heights, MOST_ROWS};
use crate::survey::{parse, Survey};
use crate::table::{make_table, Table};
use crate::text::{signed_decimals, two_decimals};
use crate::words;

/// All that one run of a program writes that writes text.
#[derive(Clone, Debug, Default, PartialEq, Eq)]
pub struct Printed {
    pub output: String,
    pub error: String,
}

impl Printed {
    /// "For a refusal it prints one line: `refused 5 4` is number 5 at place
    /// 4." Beside it, what that means here.
    fn refuse(&mut self, refusal: Refusal, sentence: Option<String>) {
        self.output += &format!("refused {} {}\n", refusal.number, refusal.place);
        if let Some(sentence) = sentence {
            self.error += &format!("{sentence}\n");
        }
    }
}

/// All that one run of any program writes: the converter's standard output is a
/// file.
#[derive(Clone, Debug, PartialEq, Eq)]
pub struct Written {
    pub output: Vec<u8>,
    pub error: String,
}

impl From<Printed> for Written {
    fn from(printed: Printed) -> Written {
        Written {
            output: printed.output.into_bytes(),
            error: printed.error,
        }
    }
}

/// What the converter writes for a file with a header of 48 bytes; "for a
/// refused file it only prints the refusal", as it is in that format.
pub fn conversion(file: &[u8]) -> Written {
    match convert(file) {
        Ok(output) => Written {
            output,
            error: String::new(),
        },
        Err(refusal) => {
            let mut printed = Printed::default();
            printed.refuse(refusal, words::of_survey(file, Format::Header48, refusal));
            printed.into()
        }
    }
}

/// A lookup: the litres at each of some dip heights, the lowest dip height for
/// each of some volumes, or the litres delivered from a dip height before to
/// one after.
#[derive(Clone, Debug, PartialEq, Eq)]
pub enum Asked {
    LitresAt(Vec<u32>),
    HeightFor(Vec<u32>),
    Delivered { before: u32, after: u32 },
}

/// A survey file as the programs have it once it is read: with its table, or
/// its refusal.
pub struct Opened<'a> {
    file: &'a [u8],
    made: Result<Accepted, Refusal>,
}

/// An accepted survey.
pub struct Accepted {
    pub survey: Survey,
    pub table: Table,
}

impl Opened<'_> {
    /// Makes the table of a file; every table has room enough here.
    pub fn new(file: &[u8]) -> Opened<'_> {
        let made = make_table(file, MOST_ROWS).map(|table| Accepted {
            survey: parse(file, Format::TODAY).expect("the survey was accepted"),
            table,
        });
        Opened { file, made }
    }

    pub fn accepted(&self) -> Option<&Accepted> {
        self.made.as_ref().ok()
    }

    pub fn refusal(&self) -> Option<Refusal> {
        self.made.as_ref().err().copied()
    }

    /// What the table program prints: the row count, then height and volume of
    /// each row; or the refusal.
    pub fn table(&self) -> Printed {
        self.printed(Accepted::table)
    }

    /// What the lookup program prints: a line for each figure, in order, each
    /// an answer or a refusal. A refused survey is told once.
    pub fn lookup(&self, asked: &Asked) -> Printed {
        self.printed(|accepted| accepted.lookup(asked))
    }

    fn printed(&self, of_accepted: impl Fn(&Accepted) -> Printed) -> Printed {
        match &self.made {
            Ok(accepted) => of_accepted(accepted),
            Err(refusal) => {
                let mut printed = Printed::default();
                printed.refuse(
                    *refusal,
                    words::of_survey(self.file, Format::TODAY, *refusal),
                );
                printed
            }
        }
    }
}

impl Accepted {
    pub fn last_row(&self) -> u32 {
        *self.table.rows.last().expect("a table has rows")
    }

    fn table(&self) -> Printed {
        let rows = &self.table.rows;
        let mut output = format!("rows {}\n", rows.len());
        for (height, row) in row_heights(self.survey.dh, self.survey.step)
            .iter()
            .zip(rows)
        {
            output += &format!("{} {}\n", two_decimals(height.0), two_decimals(*row));
        }
        Printed {
            output,
            error: String::new(),
        }
    }

    fn lookup(&self, asked: &Asked) -> Printed {
        let (dh, step, rows) = (self.survey.dh, self.survey.step, &self.table.rows);
        let mut printed = Printed::default();
        match asked {
            Asked::LitresAt(heights) => {
                for &height in heights {
                    let answer = litres_at_height(dh, step, rows, height);
                    self.line(&mut printed, height, answer.map(two_decimals));
                }
            }
            Asked::HeightFor(volumes) => {
                for &volume in volumes {
                    let answer = height_for_volume(dh, step, rows, volume);
                    self.line(&mut printed, volume, answer.map(two_decimals));
                }
            }
            &Asked::Delivered { before, after } => {
                let answer = delivered(dh, step, rows, before, after);
                // Which of the two a refusal is about.
                let figure = if before > dh { before } else { after };
                self.line(&mut printed, figure, answer.map(signed_decimals));
            }
        }
        printed
    }

    /// Adds the line of one answer to a figure.
    fn line(&self, printed: &mut Printed, figure: u32, answer: Result<String, Refusal>) {
        match answer {
            Ok(answer) => printed.output += &format!("{answer}\n"),
            Err(refusal) => {
                let sentence = words::of_lookup(figure, refusal, self.survey.dh, self.last_row());
                printed.refuse(refusal, sentence);
            }
        }
    }
}
