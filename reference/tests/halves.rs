//! Request E5: "an exact half goes to the even neighbour", "everywhere it is used:
//! dimensions, volumes, deadwood and lookups". Worked out by hand, and in whole
//! tables.

mod common;

use common::*;
use reference::deadwood::{share, Deadwood};
use reference::dimensions::{end_outer_diameter, wall};
use reference::generate::halves::volumes::CAPS;
use reference::heights::{DipHeight, ShellHeight};
use reference::numbers::Quotient;
use reference::rows::MOST_ROWS;
use reference::survey::Course;
use reference::volumes::{doubled_area, flanges, heads, shell};
use reference::{litres_at_height, make_table, Table};

fn table(file: &[u8]) -> Table {
    make_table(file, MOST_ROWS).unwrap()
}

/// The paper's survey with these numbers exchanged.
fn but(words: &[(usize, u32)]) -> Vec<u8> {
    let mut file = PAPER.survey();
    for &(at, word) in words {
        put(&mut file, at, word);
    }
    file
}

/// Halves and what lies beside them, in halves and in sixths.
#[test]
fn nearest_whole_numbers() {
    let nearest = |top, bottom| Quotient { top, bottom }.nearest();
    let halves: Vec<u128> = (0..=11).map(|top| nearest(top, 2)).collect();
    assert_eq!(halves, [0, 0, 1, 2, 2, 2, 3, 4, 4, 4, 5, 6]);
    let sixths: Vec<u128> = (0..=16).map(|top| nearest(top, 6)).collect();
    assert_eq!(sixths, [0, 0, 0, 0, 1, 1, 1, 1, 1, 2, 2, 2, 2, 2, 2, 2, 3]);
    // An odd bottom has no halves.
    let thirds: Vec<u128> = (0..=6).map(|top| nearest(top, 3)).collect();
    assert_eq!(thirds, [0, 0, 1, 1, 1, 2, 2]);
}

/// 113·355·m/710 is 113·m/2: of m = 903, 905 and 907 it is 51,019.5, 51,132.5 and
/// 51,245.5. The neighbours of the first are 51,019.34 and 51,019.66.
#[test]
fn outer_diameters() {
    for (sum, wanted) in [
        (320_564, 51_019),
        (320_565, 51_020),
        (320_566, 51_020),
        (321_274, 51_132),
        (321_275, 51_132),
        (321_276, 51_133),
        (321_985, 51_246),
    ] {
        assert_eq!(end_outer_diameter(160_000, sum - 160_000), wanted, "{sum}");
        // D2, then D1: less a wall of 1,000.
        let d = wanted as u32 - 1_000;
        let ends = but(&[(12, 160_000), (16, sum - 160_000)]);
        assert_eq!((table(&ends).d1, table(&ends).d2), (50_000, d));
        let course = but(&[(COURSE, 160_000), (COURSE + 4, sum - 160_000)]);
        assert_eq!((table(&course).d1, table(&course).d2), (d, 50_000));
    }
}

/// Courses that differ: W is (320,565 + 10)·50,000 + (320,565 - 10)·50,000, so that
/// 113·W/(710·100,000) is 51,019.5 again.
#[test]
fn a_mean_of_courses() {
    let mut file = PAPER.with_courses(100_000, &[50_000, 50_000]);
    for (at, reading) in [(0, 160_010), (4, 160_565), (16, 160_000), (20, 160_555)] {
        put(&mut file, COURSE + at, reading);
    }
    assert_eq!(table(&file).d1, 50_020);
    put(&mut file, COURSE, 160_009);
    assert_eq!(table(&file).d1, 50_019);
}

/// The corrected readings count. N = 1, t = 100, w = 125 on DH 50,000: a first term
/// of 0.5, which goes to 0, and a second of 11. The readings of 160,011 and 160,576
/// have a sum of 320,565 then, and D1 is 51,019.5, which goes to 51,020, less 1,000.
/// A first term of 1 would leave 320,563, and 51,019.18.
#[test]
fn a_half_made_of_a_half() {
    let mut file = PAPER.seamed(1, 100, 125);
    put(&mut file, COURSE, 160_011);
    put(&mut file, COURSE + 4, 160_576);
    assert_eq!(table(&file).d1, 50_020);
    // w = 375: 1.5 goes to 2.
    put(&mut file, SEAMS + 8, 375);
    put(&mut file, COURSE, 160_013);
    put(&mut file, COURSE + 4, 160_578);
    assert_eq!(table(&file).d1, 50_020);
}

/// 2·(sum)/4: of thicknesses that add up to 1,997, 1,999 and 2,001 it is 998.5,
/// 999.5 and 1,000.5. Both diameters lose it.
#[test]
fn walls() {
    for (thickness, wanted) in [
        (497, 998),
        (498, 999),
        (499, 1_000),
        (500, 1_000),
        (501, 1_000),
    ] {
        let mut file = PAPER.with_courses(100_000, &[25_000; 4]);
        put(&mut file, COURSE + 3 * 16 + 12, thickness);
        let d = 51_000 - wanted;
        assert_eq!((table(&file).d1, table(&file).d2), (d, d), "{thickness}");
    }
    let course = |thickness| Course {
        first: 160_221,
        second: 160_221,
        length: 25_000,
        thickness,
    };
    assert_eq!(wall(&[100, 100, 100, 103].map(course)), 202);
    assert_eq!(wall(&[100, 100, 100, 105].map(course)), 202);
    assert_eq!(wall(&[100, 100, 101, 106].map(course)), 204);
}

/// At the middle an item of 1 takes 0.5 and so on; the sign is put on afterwards.
#[test]
fn shares() {
    let at = |volume, height| {
        let item = Deadwood {
            low: DipHeight(1_000),
            high: DipHeight(1_400),
            volume,
        };
        share(&item, DipHeight(height))
    };
    for (volume, wanted) in [
        (1, 0),
        (2, 1),
        (3, 2),
        (5, 2),
        (7, 4),
        (9, 4),
        (9_999_997, 4_999_998),
        (9_999_999, 5_000_000),
    ] {
        assert_eq!(at(volume, 1_200), wanted);
        assert_eq!(at(-volume, 1_200), -wanted);
    }
    // A quarter and three quarters of 2, 6 and 10: 0.5 and 1.5, 1.5 and 4.5, 2.5
    // and 7.5.
    for (volume, quarter, three) in [(2, 0, 2), (6, 2, 4), (10, 2, 8)] {
        assert_eq!((at(volume, 1_100), at(volume, 1_300)), (quarter, three));
        assert_eq!((at(-volume, 1_100), at(-volume, 1_300)), (-quarter, -three));
    }
    assert_eq!((at(1, 1_000), at(1, 1_400)), (0, 1));
    // One u beside the middle it is no half.
    assert_eq!((at(1, 1_199), at(1, 1_201)), (0, 1));
    assert_eq!((at(3, 1_199), at(3, 1_201)), (1, 2));
}

/// Each item's share is rounded on its own. The paper's rows are 0, 2,796, 7,334,
/// 12,301, 16,839 and 19,635; at 10,000 each of these items is at its middle.
#[test]
fn rows_less_shares() {
    for (volumes, wanted) in [
        (vec![1], [2_796, 7_333]),
        (vec![3], [2_794, 7_331]),
        (vec![1, 1, 1], [2_796, 7_331]),
        (vec![3, 3], [2_792, 7_328]),
        (vec![-1], [2_796, 7_335]),
        (vec![-3], [2_798, 7_337]),
        (vec![-5, 7], [2_794, 7_332]),
    ] {
        let items: Vec<_> = volumes.iter().map(|&volume| (0, 20_000, volume)).collect();
        let rows = table(&PAPER.with_deadwood(&items)).rows;
        assert_eq!(rows[1..3], wanted, "{volumes:?}");
    }
}

/// Rows that stay level by a half that goes down, and rows that fall by one. Up to
/// row 1 the paper's rows grow by 2,796, from row 2 to row 3 by 4,967.
#[test]
fn rows_at_the_edge_of_falling() {
    let refused = |items| outcome(&PAPER.with_deadwood(items), MOST_ROWS);
    // 2,796.5 goes to 2,796, and row 1 is 0 like row 0; one more is 2,797.
    assert_eq!(refused(&[(0, 20_000, 5_593)]), (0, 0));
    assert_eq!(refused(&[(0, 20_000, 5_594)]), (9, 1));
    // 4,967.5 goes to 4,968, and row 3 falls; one less is 4,967, and row 3 stays
    // level, but up to row 4 the rows grow by 4,538 only.
    assert_eq!(refused(&[(20_000, 40_000, 9_935)]), (9, 3));
    assert_eq!(refused(&[(20_000, 40_000, 9_934)]), (9, 4));
    // 2,797 taken and 0.5 added, which goes to 0; of 2,798 and 1.5 the latter
    // goes to 2.
    assert_eq!(refused(&[(0, 10_000, 2_797), (0, 20_000, -1)]), (9, 1));
    assert_eq!(refused(&[(0, 10_000, 2_798), (0, 20_000, -3)]), (0, 0));
}

/// 10^10 cubic u are half of a doubled area's 2·10^10: an area of 10,000 over
/// 1,000,000 is 0.5, and so on. For the flanges the length counts twice.
#[test]
fn straight_parts() {
    for (odd, wanted) in [(1, 0), (3, 2), (5, 2), (7, 4), (9, 4)] {
        assert_eq!(shell(odd * 10_000, 1_000_000).nearest(), wanted);
        assert_eq!(flanges(odd * 500_000, 10_000).nearest(), wanted);
        assert_eq!(
            shell(odd * 10_000 - 1, 1_000_000).nearest(),
            u128::from(odd / 2)
        );
        assert_eq!(
            shell(odd * 10_000 + 1, 1_000_000).nearest(),
            u128::from(odd / 2 + 1)
        );
    }
}

/// The paper's tank up to 24,300 has a doubled area of 1,893,480,000. Times 250,000
/// that is 47,337·10^10, 23,668.5 v; three times as long 71,005.5 v.
#[test]
fn a_row_of_the_shell() {
    assert_eq!(doubled_area(50_000, ShellHeight(24_300)), 1_893_480_000);
    for (l1, wanted) in [(250_000, 23_668), (750_000, 71_006)] {
        let file = but(&[(8, l1), (COURSE + 8, l1), (28, 8_100)]);
        assert_eq!(table(&file).rows[3], wanted);
    }
}

/// D1 = D2 = DH = 55,450: 113·354,686/710 is 56,450.03, less a wall of 1,000. Up to
/// 31,200 the doubled area is 2,799,200,000: a shell of 100,000 holds 13,996 v
/// exactly, flanges of 6,250 each hold 1,749.5 and of 18,750 each 5,248.5.
#[test]
fn a_row_of_the_flanges() {
    assert_eq!(doubled_area(55_450, ShellHeight(31_200)), 2_799_200_000);
    for (l2, wanted) in [(0, 13_996), (6_250, 15_746), (18_750, 19_244)] {
        let mut words = vec![(4, 55_450), (20, l2), (28, 7_800)];
        words.extend([12, 16, COURSE, COURSE + 4].map(|at| (at, 177_343)));
        let table = table(&but(&words));
        assert_eq!((table.d1, table.d2), (55_450, 55_450));
        assert_eq!(table.rows[4], wanted, "{l2}");
    }
}

/// Full heads of D2 113,000: 355·L3·113,000²/(113·3·10^10) is 8,023·L3/6,000, for
/// L3 3,000, 9,000, 15,000 and 21,000 thus 4,011.5, 12,034.5, 20,057.5 and
/// 28,080.5. Half full they hold half of that: with L3 6,000 again 4,011.5, with
/// 18,000 12,034.5.
#[test]
fn half_ellipsoids() {
    let full = |l3| heads(113_000, ShellHeight(113_000), l3).nearest();
    let half_full = |l3| heads(113_000, ShellHeight(56_500), l3).nearest();
    assert_eq!([2_999, 3_000, 3_001].map(full), [4_010, 4_012, 4_013]);
    assert_eq!([8_999, 9_000, 9_001].map(full), [12_033, 12_034, 12_036]);
    assert_eq!([15_000, 21_000].map(full), [20_058, 28_080]);
    assert_eq!([6_000, 18_000].map(half_full), [4_012, 12_034]);

    // In a table: 113·716,283/710 is 113,999.97, less a wall of 1,000. The last row
    // of 12 gaps is a full one.
    let last_row = |kind, l3| {
        let mut words = vec![(0, kind), (4, 113_000), (24, l3)];
        words.extend([12, COURSE].map(|at| (at, 358_141)));
        words.extend([16, COURSE + 4].map(|at| (at, 358_142)));
        let table = table(&but(&words));
        assert_eq!((table.d1, table.d2), (113_000, 113_000));
        table.rows[12]
    };
    let flat = last_row(0, 0);
    for (l3, wanted) in [(9_000, 12_034), (15_000, 20_058)] {
        assert_eq!(last_row(1, l3) - flat, wanted);
    }
}

/// The spherical caps of the generator: each is an exact half in cubic u, the first
/// eight above an even number of v, the others above an odd one.
#[test]
fn spherical_caps() {
    use reference::domes::{Dome, Domes};
    for (index, (part, l3)) in CAPS.into_iter().enumerate() {
        let domes = Domes::new(Dome { d: part.d, h: l3 });
        let totals = domes.totals(part.h);
        let whole = (totals.fitting + totals.covering) / 10_000_000_000;
        let rest = (totals.fitting + totals.covering) % 10_000_000_000;
        assert_eq!(rest, 5_000_000_000, "{part:?} {l3}");
        assert_eq!(whole % 2, index as u128 / 8, "{part:?} {l3}");
        assert_eq!(domes.row(part.h).nearest(), whole + whole % 2);
    }
}

/// Two of them in a table: row 1 is at H2 with D2 = DH, and holds 0.5 or 1.5 v more
/// than with flat heads. 113·362,961/710 is 57,767.03, and 113·341,271/710 is
/// 54,314.96; less a wall of 1,000.
#[test]
fn a_row_of_spherical_caps() {
    for (d, h2, ends, wanted) in [
        (56_767, 2_900, [181_480, 181_481], 0),
        (53_315, 6_300, [170_635, 170_636], 2),
    ] {
        let row = |kind, l3| {
            let course = [(COURSE, ends[0]), (COURSE + 4, ends[1])];
            let mut words = vec![(0, kind), (4, d), (24, l3), (28, h2)];
            words.extend([(12, ends[0]), (16, ends[1])].into_iter().chain(course));
            let table = table(&but(&words));
            assert_eq!((table.d1, table.d2), (d, d));
            table.rows[1]
        };
        assert_eq!(row(2, 100) - row(0, 0), wanted);
    }
}

/// How those were found; prints such caps, short and long, most of whole mm.
///
///     cargo test --release -j1 --test halves -- --ignored --nocapture
#[test]
#[ignore = "a search"]
fn search_for_spherical_caps() {
    use reference::domes::{Dome, Domes};
    use reference::random::Random;
    let mut random = Random::new(1);
    let mut found = 0;
    for _ in 0..5_000 {
        let d = random.between(50_000, 60_000);
        let h = match random.between(1, 8) {
            1 => random.between(1, 20_000),
            2 => 100 * random.between(1, 200),
            _ => 100 * random.between(1, 20),
        };
        let domes = Domes::new(Dome { d, h });
        for height in (5..=d).step_by(5).map(ShellHeight) {
            if let Some(half) = domes.row(height).half() {
                println!("D2 {d}, L3 {h}, H2 {}: {half:?}", height.0);
                found += 1;
            }
        }
    }
    assert!(found > 0);
}

/// In the last gap of 10, at quarters, and with the largest cells.
#[test]
fn litres_on_the_line() {
    let litres = |table: &[u32], height| litres_at_height(50_000, 9_998, table, height).unwrap();
    // Rows at 0, 9,998, 19,996, 29,994, 39,992, 49,990 and 50,000.
    for (last, middle) in [([100, 105], 102), ([101, 104], 102), ([103, 104], 104)] {
        let table = [0, 0, 0, 0, 0, last[0], last[1]];
        assert_eq!(litres(&table, 49_995), middle, "{last:?}");
    }
    // Between 39,992 and 49,990: 4,999 is the middle.
    let table = [0, 0, 0, 0, u32::MAX - 1, u32::MAX, u32::MAX];
    assert_eq!(litres(&table, 44_991), u32::MAX - 1);
    let table = [0, 0, 0, 0, u32::MAX - 2, u32::MAX - 1, u32::MAX];
    assert_eq!(litres(&table, 44_991), u32::MAX - 1);
    assert_eq!(litres(&table, 49_995), u32::MAX - 1);

    // 0.5 and 1.5 between rows 0 and 2; 1.5 and 2.5 between 1 and 3.
    let litres = |table: &[u32], height| litres_at_height(50_000, 10_000, table, height).unwrap();
    let table = [0, 2, 3, 5, 5, 5];
    assert_eq!([2_500, 7_500].map(|at| litres(&table, at)), [0, 2]);
    assert_eq!([22_500, 27_500].map(|at| litres(&table, at)), [4, 4]);
    let table = [0, 1, 3, 3, 3, 3];
    assert_eq!([12_500, 17_500].map(|at| litres(&table, at)), [2, 2]);
}
