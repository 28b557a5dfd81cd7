//! Making a table from a survey, in two steps: a tank is laid out from it (refusals
//! 1 to 8 and 14), then rows are made of the tank (9).

use crate::deadwood::all_shares;
use crate::dimensions::dimensions;
use crate::format::Format;
use crate::gross::Tank;
use crate::refusal::{refuse, refuse_at, Refusal};
use crate::rows::{row_count, row_heights};
use crate::survey::parse;

/// An accepted survey's diameters and net rows; the row count of the answer
/// is the number of rows.
#[derive(Clone, Debug, PartialEq, Eq)]
pub struct Table {
    pub d1: u32,
    pub d2: u32,
    pub rows: Vec<u32>,
}

/// "The answer holds D1, D2 and the row count". "A refusal returns its number
/// and place, every other number 0". An acceptance has number 0 and place 0.
#[derive(Clone, Copy, Debug, PartialEq, Eq)]
pub struct Answer {
    pub number: u32,
    pub place: u32,
    pub d1: u32,
    pub d2: u32,
    pub rows: u32,
}

/// Makes the table of a survey of any bytes in today's format, for a lent table
/// of `table_len` cells.
pub fn make_table(survey: &[u8], table_len: usize) -> Result<Table, Refusal> {
    make_table_of(survey, Format::TODAY, table_len)
}

/// The same of a survey in any format.
pub fn make_table_of(survey: &[u8], format: Format, table_len: usize) -> Result<Table, Refusal> {
    table_of_tank(&lay_out(survey, format, table_len)?)
}

/// The tank of a survey in any format, if it passes all that is tested before its
/// rows.
pub fn lay_out(survey: &[u8], format: Format, table_len: usize) -> Result<Tank, Refusal> {
    let survey = parse(survey, format)?; // refusals 1 to 6
    let dimensions = dimensions(&survey)?; // refusals 7 and 14

    // Refusal 8: "lent table shorter than the row count".
    if table_len < row_count(survey.dh, survey.step) {
        return Err(refuse(8));
    }

    Ok(Tank::new(&survey, dimensions))
}

/// The table of a tank, if no row falls.
///
/// "Refusals: 10 is retired" (E6): "row 0 has nothing deducted, and a later row
/// below zero would have fallen and been refused as 9".
pub fn table_of_tank(tank: &Tank) -> Result<Table, Refusal> {
    let net = net_rows(tank);
    // Refusal 9: "a net row below the row before".
    if let Some(index) = first_fall(&net) {
        return Err(refuse_at(9, index));
    }

    // "Its cells are unsigned 32-bit numbers of v; every accepted net row fits."
    let rows = net
        .iter()
        .map(|&row| u32::try_from(row).expect("every accepted net row fits"))
        .collect();
    Ok(Table {
        d1: tank.dimensions.d1,
        d2: tank.dimensions.d2,
        rows,
    })
}

/// "Net = gross minus all shares", at each row.
pub fn net_rows(tank: &Tank) -> Vec<i64> {
    let survey = &tank.survey;
    row_heights(survey.dh, survey.step)
        .into_iter()
        .map(|height| tank.gross(height) as i64 - all_shares(&survey.deadwood, height))
        .collect()
}

/// The index of the first row below the row before.
pub fn first_fall(net: &[i64]) -> Option<usize> {
    (1..net.len()).find(|&index| net[index] < net[index - 1])
}

/// The same with lent memory.
pub fn fill_table(survey: &[u8], lent: &mut [u32]) -> Answer {
    fill(make_table(survey, lent.len()), lent)
}

/// "the lent table holds the net rows from its start and is unchanged after
/// them"; a refusal "leaves lent memory untouched".
pub fn fill(made: Result<Table, Refusal>, lent: &mut [u32]) -> Answer {
    match made {
        Ok(table) => {
            lent[..table.rows.len()].copy_from_slice(&table.rows);
            Answer {
                number: 0,
                place: 0,
                d1: table.d1,
                d2: table.d2,
                rows: table.rows.len() as u32,
            }
        }
        Err(refusal) => Answer {
            number: refusal.number,
            place: refusal.place,
            d1: 0,
            d2: 0,
            rows: 0,
        },
    }
}
