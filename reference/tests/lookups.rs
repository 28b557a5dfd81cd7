//! Lookups: refusals 11 to 13 and the meaning of both answers.

use reference::generate::lookups::{lookup_case, Asked};
use reference::{delivered, height_for_volume, litres_at_height, Refusal};

const TABLE: [u32; 6] = [0, 2_796, 7_334, 12_301, 16_839, 19_635];

fn litres(dh: u32, step: u32, table: &[u32], height: u32) -> Result<u32, u32> {
    numbered(litres_at_height(dh, step, table, height))
}

fn height(dh: u32, step: u32, table: &[u32], volume: u32) -> Result<u32, u32> {
    numbered(height_for_volume(dh, step, table, volume))
}

/// The answer, or the refusal's number; its place is always 0.
fn numbered(answer: Result<u32, Refusal>) -> Result<u32, u32> {
    answer.map_err(|refusal| {
        assert_eq!(refusal.place, 0);
        refusal.number
    })
}

#[test]
fn rows_themselves() {
    for (index, &row) in TABLE.iter().enumerate() {
        assert_eq!(
            litres(50_000, 10_000, &TABLE, index as u32 * 10_000),
            Ok(row)
        );
    }
}

#[test]
fn eleven() {
    for (dh, step) in [
        (49_999, 10_000),
        (500_001, 10_000),
        (0, 10_000),
        (u32::MAX, 10_000),
    ] {
        assert_eq!(litres(dh, step, &TABLE, 0), Err(11));
        assert_eq!(height(dh, step, &TABLE, 0), Err(11));
    }
    for step in [0, 1, 99, 10_001, u32::MAX] {
        assert_eq!(litres(50_000, step, &TABLE, 0), Err(11));
        assert_eq!(height(50_000, step, &TABLE, 0), Err(11));
    }
    // Too few and too many rows, and none at all.
    assert_eq!(litres(50_000, 10_000, &TABLE[..5], 0), Err(11));
    assert_eq!(litres(50_000, 10_000, &[0, 1, 2, 3, 4, 5, 6], 0), Err(11));
    assert_eq!(height(50_000, 10_000, &[], 0), Err(11));
    // A row that falls: the first that can, an inner one, the last.
    for index in 1..6 {
        let mut table = [7, 7, 7, 7, 7, 7];
        assert_eq!(litres(50_000, 10_000, &table, 0), Ok(7));
        table[index] = 6;
        assert_eq!(litres(50_000, 10_000, &table, 0), Err(11));
        assert_eq!(height(50_000, 10_000, &table, 0), Err(11));
    }
}

#[test]
fn eleven_comes_first() {
    assert_eq!(litres(50_000, 10_000, &TABLE[..5], u32::MAX), Err(11));
    assert_eq!(height(50_000, 10_000, &TABLE[..5], u32::MAX), Err(11));
}

#[test]
fn twelve() {
    assert_eq!(litres(50_000, 10_000, &TABLE, 50_000), Ok(19_635));
    assert_eq!(litres(50_000, 10_000, &TABLE, 50_001), Err(12));
    assert_eq!(litres(50_000, 10_000, &TABLE, u32::MAX), Err(12));
}

#[test]
fn thirteen() {
    assert_eq!(height(50_000, 10_000, &TABLE, 0), Ok(0));
    assert_eq!(height(50_000, 10_000, &TABLE, 19_636), Err(13));
    assert_eq!(height(50_000, 10_000, &TABLE, u32::MAX), Err(13));
    // The lowest height: 19,635 is first the nearest v a little below DH.
    assert_eq!(height(50_000, 10_000, &TABLE, 19_635), Ok(49_999));
}

#[test]
fn what_was_delivered() {
    let delivered = |before, after| {
        delivered(50_000, 10_000, &TABLE, before, after).map_err(|refusal| refusal.number)
    };
    assert_eq!(delivered(0, 5_000), Ok(1_398));
    assert_eq!(delivered(5_000, 0), Ok(-1_398));
    assert_eq!(delivered(5_000, 5_000), Ok(0));
    assert_eq!(delivered(0, 50_000), Ok(19_635));
    assert_eq!(delivered(50_001, 0), Err(12));
    assert_eq!(delivered(0, 50_001), Err(12));
    assert_eq!(delivered(u32::MAX, u32::MAX), Err(12));
}

/// The largest differences either way do not fit 32 bits with a sign.
#[test]
fn delivered_of_the_largest_cells() {
    let table = [0, u32::MAX, u32::MAX, u32::MAX, u32::MAX, u32::MAX];
    let most = i64::from(u32::MAX);
    assert_eq!(delivered(50_000, 10_000, &table, 0, 50_000), Ok(most));
    assert_eq!(delivered(50_000, 10_000, &table, 50_000, 0), Ok(-most));
    let falling = [0, 1, 2, 3, 2, 4];
    assert!(delivered(50_000, 10_000, &falling, 0, 0).is_err_and(|refusal| refusal.number == 11));
}

#[test]
fn the_short_last_step() {
    // Rows at 0, 9,999, ... 49,995 and 50,000.
    let table = [0, 0, 0, 0, 0, 100, 105];
    assert_eq!(litres(50_000, 9_999, &table, 49_995), Ok(100));
    assert_eq!(litres(50_000, 9_999, &table, 49_997), Ok(102));
    assert_eq!(litres(50_000, 9_999, &table, 50_000), Ok(105));
    assert_eq!(height(50_000, 9_999, &table, 103), Ok(49_998));
}

/// The value on the line is rounded, not what it has risen: between rows 0 and 1
/// the middle, 0.5, is 0; between 1 and 2 it is 2, between 2 and 3 also 2.
#[test]
fn halves_go_to_the_even_row() {
    let table = [0, 1, 2, 3, 4, 5];
    let around_middles = [
        (4_999, 0),
        (5_000, 0),
        (5_001, 1),
        (14_999, 1),
        (15_000, 2),
        (15_001, 2),
        (24_999, 2),
        (25_000, 2),
        (25_001, 3),
        (35_000, 4),
        (45_000, 4),
    ];
    for (at, wanted) in around_middles {
        assert_eq!(litres(50_000, 10_000, &table, at), Ok(wanted), "{at}");
    }
    // The lowest heights: a half that goes up reaches its row, one that goes
    // down does not.
    for (volume, wanted) in [
        (1, 5_001),
        (2, 15_000),
        (3, 25_001),
        (4, 35_000),
        (5, 45_001),
    ] {
        assert_eq!(
            height(50_000, 10_000, &table, volume),
            Ok(wanted),
            "{volume}"
        );
    }
}

#[test]
fn the_largest_cells() {
    let table = [0, u32::MAX, u32::MAX, u32::MAX, u32::MAX, u32::MAX];
    assert_eq!(litres(50_000, 10_000, &table, 5_000), Ok(1 << 31));
    assert_eq!(litres(50_000, 10_000, &table, 50_000), Ok(u32::MAX));
    assert_eq!(height(50_000, 10_000, &table, u32::MAX), Ok(10_000));
}

/// Of generated lookups: the litres lie between their rows, and the height
/// found is enough while the one below it is not.
#[test]
fn generated_lookups() {
    let mut seen = [0; 14];
    for number in 0..4_000 {
        let case = lookup_case(11, number);
        let answer = case.answer();
        seen[answer.map_or_else(|refusal| refusal.number, |_| 0) as usize] += 1;
        let Ok(figure) = answer else { continue };
        let litres = |h| litres_at_height(case.dh, case.step, &case.table, h).unwrap();
        match case.asked {
            Asked::Litres(height) => {
                let index = (height / case.step) as usize;
                let above = (index + 1).min(case.table.len() - 1);
                assert!(case.table[index] <= figure && figure <= case.table[above]);
            }
            Asked::Height(volume) => {
                assert!(figure <= case.dh);
                assert!(litres(figure) >= volume);
                assert!(figure == 0 || litres(figure - 1) < volume);
            }
        }
    }
    for number in [0, 11, 12, 13] {
        assert!(seen[number] > 100, "{seen:?}");
    }
}
