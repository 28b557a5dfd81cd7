//! Rows below zero, which refusal 9 finds: what the generator and the comparison do
//! about them.

mod common;

use common::*;
use reference::below_zero::BelowZero::{self, FallsFirst, FellBefore};
use reference::counted::Tally;
use reference::generate::case;
use reference::rows::MOST_ROWS;
use reference::table::{lay_out, net_rows, table_of_tank};
use reference::Format;

/// The paper's rows are 0, 2796, 7334, 12301, 16839, 19635 less the items.
#[test]
fn which_row_is_below_zero() {
    let cases: [(&[(u32, u32, i32)], _); 6] = [
        (&[], None),
        // Row 1 is 0, then -1.
        (&[(0, 10_000, 2_796)], None),
        (&[(0, 10_000, 2_797)], Some(FallsFirst)),
        // Row 3 is 0 and so falls; row 4 is 0 too, then -1.
        (&[(20_000, 30_000, 12_301), (30_000, 40_000, 4_538)], None),
        (
            &[(20_000, 30_000, 12_301), (30_000, 40_000, 4_539)],
            Some(FellBefore),
        ),
        (
            &[(20_000, 30_000, 12_302), (30_000, 40_000, 4_538)],
            Some(FallsFirst),
        ),
    ];
    for (items, wanted) in cases {
        let file = PAPER.with_deadwood(items);
        let tank = lay_out(&file, Format::TODAY, MOST_ROWS).unwrap();
        assert_eq!(BelowZero::of_tank(&tank), wanted, "{items:?}");
    }
}

/// Row 0 never is, and of a tank with such a row none gets a table.
#[test]
fn no_table_has_one() {
    let mut seen = Tally::<BelowZero>::default();
    for number in 0..4_000 {
        let Ok(tank) = lay_out(&case(5, number).survey, Format::TODAY, MOST_ROWS) else {
            continue;
        };
        assert!(net_rows(&tank)[0] >= 0);
        if let Some(below) = BelowZero::of_tank(&tank) {
            assert_eq!(table_of_tank(&tank).unwrap_err().number, 9);
            seen.add([below]);
        }
    }
    assert!(seen.least() > 20, "{seen:?}");
}
