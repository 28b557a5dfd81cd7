//! What must hold of every generated case.

use reference::deadwood::all_shares;
use reference::dimensions::dimensions;
use reference::generate::{case, sound_case};
use reference::gross::Tank;
use reference::heights::{corrected, DipHeight, ShellHeight};
use reference::numbers::{
    root_down, root_of_fraction_down, root_of_fraction_up, root_up, Quotient,
};
use reference::random::Random;
use reference::rows::{row_count, row_heights, MOST_ROWS};
use reference::survey::parse;
use reference::text::{hundredths, signed_decimals, two_decimals, with_commas};
use reference::volumes::{chord, doubled_area, doubled_areas};
use reference::Format;
use reference::{fill_table, make_table};

const UNTOUCHED: u32 = 0xdead_beef;

#[test]
fn answers_and_lent_memory() {
    let mut seen = [0; 15];
    let mut falls = [0; 3]; // at row 1, inside, at the last row
    for number in 0..4_000 {
        let case = case(2, number);
        let mut lent = vec![UNTOUCHED; case.table_len];
        let answer = fill_table(&case.survey, &mut lent);
        seen[answer.number as usize] += 1;
        match make_table(&case.survey, case.table_len) {
            Ok(table) => {
                assert_eq!((answer.number, answer.place), (0, 0));
                assert_eq!((answer.d1, answer.d2), (table.d1, table.d2));
                assert_eq!(answer.rows as usize, table.rows.len());
                assert_eq!(lent[..table.rows.len()], table.rows);
                assert!(lent[table.rows.len()..]
                    .iter()
                    .all(|&cell| cell == UNTOUCHED));
                // A table of another length gives the same rows, or refusal 8.
                let longer = make_table(&case.survey, table.rows.len() + 9).unwrap();
                assert_eq!(longer, table);
                let shorter = make_table(&case.survey, table.rows.len() - 1).unwrap_err();
                assert_eq!((shorter.number, shorter.place), (8, 0));
            }
            Err(refusal) => {
                assert_eq!(
                    (answer.number, answer.place),
                    (refusal.number, refusal.place)
                );
                assert_eq!((answer.d1, answer.d2, answer.rows), (0, 0, 0));
                assert!(lent.iter().all(|&cell| cell == UNTOUCHED));
                if refusal.number == 9 {
                    let survey = parse(&case.survey, Format::TODAY).unwrap();
                    let last = row_count(survey.dh, survey.step) as u32 - 1;
                    assert!(1 <= refusal.place && refusal.place <= last);
                    falls[match refusal.place {
                        1 => 0,
                        place if place == last => 2,
                        _ => 1,
                    }] += 1;
                } else if refusal.number != 5 {
                    assert_eq!(refusal.place, 0);
                }
            }
        }
    }
    // The generator reaches every refusal; 10 is retired.
    for number in (0..=9).chain([14]) {
        assert!(seen[number] > 50, "{seen:?}");
    }
    assert_eq!(seen[10], 0);
    assert!(falls.iter().all(|&count| count > 10), "{falls:?}");
}

#[test]
fn accepted_rows() {
    for number in 0..500 {
        let case = sound_case(4, number);
        let Ok(table) = make_table(&case.survey, case.table_len) else {
            continue;
        };
        let survey = parse(&case.survey, Format::TODAY).unwrap();
        let dimensions = dimensions(&survey).unwrap();
        let tank = Tank::new(&survey, dimensions);
        let heights = row_heights(survey.dh, survey.step);
        assert_eq!(heights.len(), row_count(survey.dh, survey.step));
        assert_eq!(heights.len(), table.rows.len());
        assert_eq!(heights[0], DipHeight(0));
        assert_eq!(heights[heights.len() - 1], DipHeight(survey.dh));
        assert!(heights.windows(2).all(|pair| pair[0] < pair[1]));
        assert!(table.rows.windows(2).all(|pair| pair[0] <= pair[1]));
        // "the gross ... equals the cell written for the row plus all
        // deadwood shares there".
        for (&height, &row) in heights.iter().zip(&table.rows) {
            let shares = all_shares(&survey.deadwood, height);
            assert_eq!(tank.gross(height) as i64, i64::from(row) + shares);
        }
        assert_eq!(all_shares(&survey.deadwood, DipHeight(0)), 0);
        let whole: i64 = survey
            .deadwood
            .iter()
            .map(|item| i64::from(item.volume))
            .sum();
        assert_eq!(all_shares(&survey.deadwood, DipHeight(survey.dh)), whole);
    }
}

#[test]
fn most_sound_cases_are_accepted() {
    let accepted = (0..500)
        .map(|number| sound_case(6, number))
        .filter(|case| make_table(&case.survey, case.table_len).is_ok())
        .count();
    assert!(accepted > 400, "{accepted}");
}

#[test]
fn the_largest_row_count() {
    let mut most = 0;
    for dh in [50_000, 50_001, 499_901, 499_999, 500_000] {
        for step in [100, 101, 9_999, 10_000] {
            assert_eq!(row_count(dh, step), row_heights(dh, step).len());
            most = most.max(row_count(dh, step));
        }
    }
    assert_eq!(most, MOST_ROWS);
}

#[test]
fn chords_are_whole_roots() {
    for diameter in [50_000, 50_001, 499_999, 500_000] {
        for level in 0..=diameter {
            let chord = chord(diameter, level);
            let square = 4 * u64::from(level) * u64::from(diameter - level);
            assert!(chord * chord <= square && square < (chord + 1) * (chord + 1));
        }
    }
}

#[test]
fn running_areas_are_the_areas() {
    for diameter in [50_000, 50_001] {
        let areas = doubled_areas(diameter);
        assert_eq!(areas.len(), diameter as usize + 1);
        for height in [0, 1, 2, 777, 25_000, 49_999, 50_000] {
            assert_eq!(
                areas[height as usize],
                doubled_area(diameter, ShellHeight(height))
            );
        }
    }
}

#[test]
fn corrected_heights() {
    // "The half is rounded down, toward the lower number, also below zero",
    // and the height is then held within 0 to D.
    let cases = [
        (0, 50_000, 50_000, 0),
        (0, 50_003, 50_000, 1),
        (0, 50_000, 50_003, 0),
        (2, 50_000, 50_003, 0),
        (3, 50_000, 50_003, 1),
        (50_003, 50_000, 50_003, 50_000),
        (50_000, 50_003, 50_000, 50_001),
        (60_000, 50_000, 60_000, 50_000),
        (50_000, 60_000, 50_000, 55_000),
    ];
    for (height, diameter, dh, wanted) in cases {
        assert_eq!(
            corrected(DipHeight(height), diameter, dh),
            ShellHeight(wanted)
        );
    }
}

#[test]
fn roots_and_rounding() {
    let mut random = Random::new(9);
    for _ in 0..10_000 {
        let shift = random.between(0, 60);
        let square = u128::from(random.any() >> shift);
        let down = root_down(square);
        assert!(down * down <= square && square < (down + 1) * (down + 1));
        let up = root_up(square);
        assert!(up * up >= square && (up == 0 || (up - 1) * (up - 1) < square));
        let bottom = u128::from(random.between(1, 1_000));
        let down = root_of_fraction_down(square, bottom);
        assert!(bottom * down * down <= square && square < bottom * (down + 1) * (down + 1));
        let up = root_of_fraction_up(square, bottom);
        assert!(bottom * up * up >= square && (up == 0 || bottom * (up - 1) * (up - 1) < square));
        let quotient = Quotient {
            top: square,
            bottom,
        };
        let whole = quotient.nearest();
        // At most a half from it; exactly that, and it is even.
        let off = (2 * square).abs_diff(2 * whole * bottom);
        assert!(off <= bottom);
        assert_eq!(quotient.half().is_some(), off == bottom);
        assert!(off < bottom || whole.is_multiple_of(2));
    }
}

#[test]
fn decimals() {
    for number in [0, 1, 9, 10, 99, 100, 12_345, u32::MAX] {
        assert_eq!(hundredths(&two_decimals(number)), Some(number));
    }
    assert_eq!(hundredths("12"), Some(1_200));
    assert_eq!(hundredths("12.3"), Some(1_230));
    assert_eq!(hundredths("42949672.96"), None);
    for text in [
        "", ".", ".5", "1.", "1.234", "-1", "+1", "1e2", "1 ", "1.2.3",
    ] {
        assert_eq!(hundredths(text), None, "{text}");
    }
}

#[test]
fn signs_and_commas() {
    for (number, signed, commas) in [
        (0, "0.00", "0.00"),
        (1, "+0.01", "0.01"),
        (-1, "-0.01", "-0.01"),
        (99_999, "+999.99", "999.99"),
        (100_000, "+1000.00", "1,000.00"),
        (-100_000, "-1000.00", "-1,000.00"),
        (99_999_999, "+999999.99", "999,999.99"),
        (100_000_000, "+1000000.00", "1,000,000.00"),
        (i64::from(u32::MAX), "+42949672.95", "42,949,672.95"),
        (i64::from(i32::MIN), "-21474836.48", "-21,474,836.48"),
    ] {
        assert_eq!(signed_decimals(number), signed);
        assert_eq!(with_commas(number), commas);
    }
}

/// "Bytes in no section are ignored", and the order of sections in the file
/// does not change a table.
#[test]
fn layout_does_not_matter() {
    use reference::generate::sound::{layout, sound};
    for number in 0..200 {
        let mut random = Random::for_case(8, number);
        let mut plan = sound(&mut random, Format::TODAY);
        let first = make_table(&plan.encode(), MOST_ROWS);
        plan.layout = layout(&mut random, &plan);
        plan.layout.order.rotate_left(1);
        assert_eq!(first, make_table(&plan.encode(), MOST_ROWS));
    }
}

/// The generator meets every edge of refusal 7, for both diameters.
#[test]
fn diameters_at_their_limits() {
    use reference::dimensions::{end_outer_diameter, shell_outer_diameter, wall};
    use reference::generate::diameters::at_limits;
    let mut sizes = [Vec::new(), Vec::new()];
    let mut distances = [Vec::new(), Vec::new()];
    for number in 0..2_000 {
        let plan = at_limits(&mut Random::for_case(10, number), Format::TODAY);
        let d1 =
            shell_outer_diameter(&plan.survey.corrected_courses()) - wall(&plan.survey.courses);
        let d2 =
            end_outer_diameter(plan.survey.left, plan.survey.right) - wall(&plan.survey.courses);
        for (which, diameter) in [d1, d2].into_iter().enumerate() {
            sizes[which].push(diameter);
            distances[which].push(diameter - i64::from(plan.survey.dh));
        }
    }
    for which in 0..2 {
        for size in [49_999, 50_000, 500_000, 500_001] {
            assert!(sizes[which].contains(&size));
        }
        for distance in [-10_001, -10_000, 10_000, 10_001] {
            assert!(distances[which].contains(&distance));
        }
    }
}
