//! Request E2: the cells of spherical caps, the heads' rows that they give, and
//! document 000's formula 28.

mod common;

use common::*;
use reference::domes::{spans, Dome, Domes, Span, Totals};
use reference::heights::ShellHeight;
use reference::make_table;
use reference::volumes::CUBIC_U_IN_V;

fn dome(d: u32, h: u32) -> Dome {
    Dome { d, h }
}

fn totals(d: u32, h: u32, height: u32) -> (u128, u128) {
    let Totals { fitting, covering } = Domes::new(dome(d, h)).totals(ShellHeight(height));
    (fitting, covering)
}

/// h·w² at depth x and level `doubled`/2, term by term from "R² - x² -
/// 2x(ρ - h), with R = D2/2 and 2ρ = (R² + h²)/h": w² is four times that less
/// (y - R)². Below zero outside the dome.
fn square_by_h(dome: Dome, x: u32, doubled: u32) -> i128 {
    let [d, h, x, doubled] = [dome.d, dome.h, x, doubled].map(i128::from);
    let four_r_squared = d * d;
    let eight_rho_by_h = four_r_squared + 4 * h * h;
    h * four_r_squared - 4 * h * x * x - x * eight_rho_by_h + 8 * h * h * x
        - h * (doubled - d) * (doubled - d)
}

/// The widths of a cell, looked for at every whole u of its depths and every
/// half u of its levels, so that D/2 is among them.
#[test]
fn every_point_of_a_cell() {
    for dome in [
        dome(300, 150),
        dome(350, 175),
        dome(600, 99),
        dome(601, 100),
        dome(750, 101),
        dome(1_001, 250),
        dome(999, 499),
        dome(199, 1),
    ] {
        for levels in spans(dome.d) {
            for depths in spans(dome.h) {
                let points = (depths.from..=depths.to)
                    .flat_map(|x| (2 * levels.from..=2 * levels.to).map(move |y| (x, y)));
                let squares: Vec<i128> = points.map(|(x, y)| square_by_h(dome, x, y)).collect();
                let h = i128::from(dome.h);
                let least = *squares.iter().min().unwrap();
                let width = dome.fitting_width(levels, depths) as i128;
                // The largest whole number whose square is at most w², or 0.
                assert!(
                    h * width * width <= least.max(0),
                    "{dome:?} {levels:?} {depths:?}"
                );
                assert!(h * (width + 1) * (width + 1) > least);
                let greatest = *squares.iter().max().unwrap();
                let width = dome.covering_width(levels, depths) as i128;
                // The smallest whole number whose square is at least w².
                assert!(
                    h * width * width >= greatest,
                    "{dome:?} {levels:?} {depths:?}"
                );
                assert!(width == 0 || h * (width - 1) * (width - 1) < greatest);
            }
        }
    }
}

#[test]
fn steps_of_a_millimetre() {
    let steps = |end| {
        spans(end)
            .map(|Span { from, to }| (from, to))
            .collect::<Vec<_>>()
    };
    assert_eq!(steps(1), [(0, 1)]);
    assert_eq!(steps(99), [(0, 99)]);
    assert_eq!(steps(100), [(0, 100)]);
    assert_eq!(steps(101), [(0, 100), (100, 101)]);
    assert_eq!(steps(250), [(0, 100), (100, 200), (200, 250)]);
}

/// D = 300, levels of 100 each. With h at most 100 there is one length and its
/// far end is the tip, so nothing fits. At the flange the widths are root of
/// 90,000 - 100² = 282.8, covered by 283; 300, the second level holding D/2;
/// and 283 again: 866 in all, times 100 high.
///
/// With h = 150, half a ball, the disc at depth 100 has a squared diameter of
/// 4·(150² - 100²) = 50,000. In its length of 100 the second level has a
/// fitting width of root of 50,000 - 100² = 200, the others none; in the length
/// of 50 behind, the covering widths are 200, root of 50,000 = 223.6 so 224,
/// and 200.
#[test]
fn small_domes_by_hand() {
    assert_eq!(totals(300, 1, 300), (0, 866 * 100));
    assert_eq!(totals(300, 99, 300), (0, 866 * 100 * 99));
    assert_eq!(totals(300, 100, 300), (0, 866 * 100 * 100));
    let covering = 866 * 100 * 100 + 624 * 100 * 50;
    assert_eq!(totals(300, 150, 300), (200 * 100 * 100, covering));
    // D/2 on the face between two levels: both have the full width of 400. The
    // others have root of 160,000 - 200² = 346.4, covered by 347.
    let widths = 347 + 400 + 400 + 347;
    assert_eq!(totals(400, 100, 400), (0, widths * 100 * 100));
}

/// A "level that the liquid only partly fills keeps these widths and counts
/// with the height filled", here the second level of the half ball: 30 of 100.
#[test]
fn a_row_inside_a_level() {
    let full = (283 * 100 + 200 * 50) * 100;
    let part = (300 * 100 + 224 * 50) * 30;
    assert_eq!(totals(300, 150, 130), (200 * 100 * 30, full + part));
    assert_eq!(totals(300, 150, 0), (0, 0));
    assert_eq!(totals(300, 150, 1), (0, 283 * 100 + 200 * 50));
}

/// D = 250, h = 100: the third level is 50 high. Its faces are 150 and 250 from
/// the middle, doubled; the first two levels' 50, and the second holds D/2.
/// Widths: root of 62,500 - 2,500 = 244.9, so 245; 250; root of 62,500 - 22,500
/// = 200.
#[test]
fn a_level_cut_short() {
    let below = (245 + 250) * 100 * 100;
    assert_eq!(totals(250, 100, 200), (0, below));
    assert_eq!(totals(250, 100, 230), (0, below + 200 * 100 * 30));
    assert_eq!(totals(250, 100, 250), (0, below + 200 * 100 * 50));
}

/// Every height of a dome, against all of its cells counted one by one.
#[test]
fn totals_are_those_of_the_cells() {
    for dome in [dome(1_234, 345), dome(1_200, 600), dome(1_001, 99)] {
        let domes = Domes::new(dome);
        for height in 0..=dome.d {
            let mut counted = Totals::default();
            for levels in spans(dome.d).filter(|levels| levels.from < height) {
                let filled = height.min(levels.to) - levels.from;
                for depths in spans(dome.h) {
                    let face = u128::from(filled) * u128::from(depths.to - depths.from);
                    counted.fitting += dome.fitting_width(levels, depths) * face;
                    counted.covering += dome.covering_width(levels, depths) * face;
                }
            }
            assert_eq!(domes.totals(ShellHeight(height)), counted);
        }
    }
}

/// Totals and rows of D2 59,000, h 1,503, worked out apart from this program
/// with fractions of the request's own formula.
#[test]
fn readings_of_a_dome() {
    let domes = Domes::new(dome(59_000, 1_503));
    for (height, fitting, covering, row) in [
        (0, 0, 0, 0),
        (1, 0, 485_400, 0),
        (99, 0, 48_054_600, 0),
        (100, 0, 48_540_000, 0),
        (101, 0, 49_225_900, 0),
        (12_345, 153_972_224_000, 198_651_265_500, 35),
        (29_500, 957_102_580_000, 1_099_449_339_800, 206),
        (58_999, 1_914_205_160_000, 2_198_898_194_200, 411),
        (59_000, 1_914_205_160_000, 2_198_898_679_600, 411),
    ] {
        let height = ShellHeight(height);
        assert_eq!(domes.totals(height), Totals { fitting, covering });
        assert_eq!(domes.row(height).nearest(), row);
        assert_eq!(domes.difference(height), 2 * (covering - fitting));
    }
}

/// What both volumes of `formula_28` are over.
const BOTTOM: u128 = 12 * 10_000_000;

/// Both heads by formula 28, V3 = (π·L3/3)·(3/4·D2² + L3²), in cubic u over
/// `BOTTOM`, with 3.1415926 and with 3.1415927 for π.
fn formula_28(dome: Dome) -> (u128, u128) {
    let [d, h] = [dome.d, dome.h].map(u128::from);
    let over_pi = h * (3 * d * d + 4 * h * h);
    (31_415_926 * over_pi, 31_415_927 * over_pi)
}

fn litres(cubic_u: f64) -> f64 {
    cubic_u / (100.0 * CUBIC_U_IN_V as f64)
}

/// Full heads against formula 28, and half full ones against half of it: the
/// volume lies between the cells that fit and those that cover, so the row,
/// halfway between these, is within half their difference and its rounding.
/// Shown with `cargo test --test domes -- --nocapture`.
#[test]
fn formula_28_full_and_half_full() {
    println!("     D2      L3   row in L  formula 28  difference  half of covering less fitting");
    for dome in [
        dome(50_000, 1),
        dome(50_000, 99),
        dome(50_000, 100),
        dome(50_000, 101),
        dome(50_000, 25_000),
        dome(50_050, 12_345),
        dome(60_002, 5_000),
        dome(120_000, 30_000),
        dome(260_000, 65_000),
        dome(300_000, 150_000),
        dome(499_998, 249_999),
        dome(500_000, 1),
        dome(500_000, 250_000),
        dome(500_000, 100_000),
    ] {
        let domes = Domes::new(dome);
        let (low, high) = formula_28(dome);
        for (height, share) in [(dome.d, 1), (dome.d / 2, 2)] {
            let height = ShellHeight(height);
            let Totals { fitting, covering } = domes.totals(height);
            assert!(share * 2 * fitting * BOTTOM <= low, "{dome:?}");
            assert!(high <= share * 2 * covering * BOTTOM, "{dome:?}");

            // Twice the row, and of twice the volume the lowest and the highest.
            let row = 2 * domes.row(height).nearest() * CUBIC_U_IN_V * BOTTOM * share;
            let room = (domes.difference(height) + CUBIC_U_IN_V) * BOTTOM * share;
            assert!(row <= 2 * low + room && 2 * high <= row + room, "{dome:?}");
        }
        let full = ShellHeight(dome.d);
        let row = domes.row(full).nearest() as f64 / 100.0;
        let [d, h] = [dome.d, dome.h].map(f64::from);
        let volume = litres(std::f64::consts::PI * h / 3.0 * (0.75 * d * d + h * h));
        println!(
            "{:7} {:7} {row:10.2} {volume:11.3} {:+11.3} {:10.3}",
            dome.d,
            dome.h,
            row - volume,
            litres(domes.difference(full) as f64) / 2.0
        );
    }
}

/// A diameter of an even number of mm has levels that are mirrored at D/2.
#[test]
fn half_is_half() {
    for dome in [dome(50_000, 25_000), dome(50_200, 777), dome(120_000, 100)] {
        let domes = Domes::new(dome);
        let half = domes.totals(ShellHeight(dome.d / 2));
        let full = domes.totals(ShellHeight(dome.d));
        assert_eq!(2 * half.fitting, full.fitting);
        assert_eq!(2 * half.covering, full.covering);
    }
}

/// Tables with caps hold the rows of flat heads and the heads' rows beside
/// them. D2 is 50,000, then 50,001: half the difference from DH is then rounded
/// down to 0, so that H2 is the dip height in both.
#[test]
fn rows_of_a_table() {
    for (right, d2) in [(160_221, 50_000), (160_227, 50_001)] {
        for l3 in [1, 99, 100, 101, 2_500, 12_345, 24_999, 25_000] {
            let [flat, caps] = [(0, 0), (2, l3)].map(|(kind, l3)| {
                let mut file = PAPER.headed(kind, l3);
                put(&mut file, 16, right);
                put(&mut file, 28, 1_234);
                make_table(&file, 1_000).unwrap()
            });
            assert_eq!((caps.d1, caps.d2), (50_000, d2));
            let domes = Domes::new(dome(d2, l3));
            let heights = (0..).map(|index| (index * 1_234).min(50_000));
            for (height, (flat, caps)) in heights.zip(flat.rows.iter().zip(&caps.rows)) {
                let heads = domes.row(ShellHeight(height)).nearest() as u64;
                assert_eq!(u64::from(caps - flat), heads, "{d2} {l3} {height}");
            }
        }
    }
}

/// The last level of D2 = 50,450 is 50 high; DH 50,450 reaches to its end.
#[test]
fn a_full_table_with_a_level_cut_short() {
    let mut file = PAPER.headed(2, 3_333);
    let half = |outer: u32| (710 * outer / 113).div_ceil(2);
    for at in [12, 16, COURSE, COURSE + 4] {
        put(&mut file, at, half(51_450));
    }
    put(&mut file, 4, 50_450);
    let table = make_table(&file, 100).unwrap();
    assert_eq!((table.d1, table.d2), (50_450, 50_450));
    put(&mut file, 0, 0);
    put(&mut file, 24, 0);
    let flat = make_table(&file, 100).unwrap();
    let domes = Domes::new(dome(50_450, 3_333));
    for (index, height) in [(5, 50_000), (6, 50_450)] {
        let heads = u64::from(table.rows[index] - flat.rows[index]);
        assert_eq!(heads, domes.row(ShellHeight(height)).nearest() as u64);
    }
    let Totals { covering, .. } = domes.totals(ShellHeight(50_450));
    let Totals {
        covering: below, ..
    } = domes.totals(ShellHeight(50_400));
    assert!(covering > below);
}
