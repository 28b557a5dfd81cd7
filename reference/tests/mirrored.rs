//! Request E7, "Upside down": its four laws with this program's own numbers, and that
//! no premise of the law on rows can be left out.

mod common;

use common::*;
use reference::dimensions::Dimensions;
use reference::domes::{Dome, Domes};
use reference::gross::Tank;
use reference::heights::{DipHeight, ShellHeight};
use reference::mirrored::{mirrored, Pair, WITHIN};
use reference::numbers::Quotient;
use reference::random::Random;
use reference::table::{lay_out, table_of_tank};
use reference::volumes::{chord, doubled_area, doubled_areas, heads, shell};
use reference::Format;
use std::collections::BTreeSet;

/// Smallest, largest, odd and even ones.
const REAL: [u32; 6] = [50_000, 50_001, 123_457, 260_000, 499_999, 500_000];

fn diameters() -> impl Iterator<Item = u32> {
    (1..=200).chain(REAL)
}

#[test]
fn chords() {
    for d in diameters() {
        for y in 0..=d {
            assert_eq!(chord(d, y), chord(d, d - y), "{d} {y}");
        }
    }
}

/// "for every diameter and height that the doubled area up to H plus that up to D - H
/// is the whole doubled area, exactly".
#[test]
fn doubled_areas_of_mirrored_heights() {
    for d in 1..=200 {
        let area = |h| doubled_area(d, ShellHeight(h));
        for h in 0..=d {
            assert_eq!(area(h) + area(d - h), area(d), "{d} {h}");
        }
    }
    for d in REAL {
        let areas = doubled_areas(d);
        let sums = areas.iter().zip(areas.iter().rev());
        for (h, (lower, upper)) in sums.enumerate() {
            assert_eq!(lower + upper, areas[d as usize], "{d} {h}");
        }
    }
}

/// Each level from 0 to the middle, worked out once, is enough for the whole area: in
/// it every level but 0 and D counts twice, and its mirrored one as much. Only the
/// middle of an even diameter is its own.
#[test]
fn levels_up_to_the_middle() {
    for d in diameters() {
        let once: u64 = (0..=d / 2).map(|y| chord(d, y)).sum();
        let own = if d.is_multiple_of(2) {
            chord(d, d / 2)
        } else {
            0
        };
        assert_eq!(4 * once - 2 * own, doubled_area(d, ShellHeight(d)), "{d}");
    }
}

/// That the first two sum to the third, as fractions over one bottom.
fn assert_sum(one: Quotient, other: Quotient, whole: Quotient) {
    assert_eq!([one.bottom, other.bottom], [whole.bottom; 2]);
    assert_eq!(one.top + other.top, whole.top);
}

/// "head-pair volumes of kind 1 obey this before rounding".
#[test]
fn half_ellipsoids() {
    let assert_law = |d, h, l3| {
        let volume = |height| heads(d, ShellHeight(height), l3);
        assert_sum(volume(h), volume(d - h), volume(d));
    };
    for d in 1..=200 {
        for h in 0..=d {
            assert_law(d, h, 1 + 7 * h);
        }
    }
    let mut random = Random::new(23);
    for d in REAL {
        for l3 in [1, random.between(2, 259_999), 260_000] {
            for h in (0..=d).step_by(7) {
                assert_law(d, h, l3);
            }
        }
    }
}

/// "two shells of one diameter laid end to end hold, before rounding, the sum".
#[test]
fn shells_end_to_end() {
    let mut random = Random::new(24);
    for d in REAL {
        for area in doubled_areas(d).into_iter().step_by(13) {
            let l1 = random.between(100_000, 1_500_000);
            let other = random.between(100_000, 1_500_000);
            assert_sum(shell(area, l1), shell(area, other), shell(area, l1 + other));
        }
    }
    // Not so when rounded: in the paper's tank, filled to 10,000, a shell of 100,000
    // holds 2795.54 v, one of 200,000 holds 5591.09.
    let rounded = |l1| shell(doubled_area(50_000, ShellHeight(10_000)), l1).nearest();
    assert_eq!(rounded(100_000), 2_796);
    assert_eq!(rounded(200_000), 5_591);
}

/// A tank of these diameters and of kind 1, or of kind 0 if its heads have no length.
fn tank(dh: u32, [d1, d2]: [u32; 2], [l1, l2, l3]: [u32; 3]) -> Tank {
    let kind = u32::from(l3 > 0);
    Tank::new(&tank_of(kind, dh, l1, l2, l3), Dimensions { d1, d2 })
}

/// "with D1 = D2 = DH, no deadwood and kind 0 or 1 two mirrored heights' gross rows sum
/// to the full gross within 3 v": at every height, whether a row stands there or not.
///
/// In one tank a part is off only one way: if its full volume is rounded up, both
/// heights may have been rounded down, and the other way round. So some height is off
/// by each number from as many as are rounded up to as many as are rounded down.
#[test]
fn every_height() {
    for (dh, lengths, [up, down]) in [
        (50_000, [100_000, 0, 0], [1, 0]),
        (50_001, [123_457, 3_001, 0], [1, 1]),
        (50_000, [100_000, 2_500, 12_500], [2, 1]),
        (50_000, [106_000, 4_000, 11_500], [3, 0]),
        (123_457, [1_234_567, 19_999, 31_415], [0, 3]),
        (260_000, [900_000, 4_000, 65_000], [2, 1]),
        (500_000, [3_000_000, 20_000, 259_999], [1, 2]),
    ] {
        let tank = tank(dh, [dh; 2], lengths);
        let full = tank.parts(DipHeight(dh)).map(|part| {
            let rounded = part.nearest() * part.bottom;
            [rounded > part.top, rounded < part.top]
        });
        let parts = |way: usize| full.iter().filter(|ways| ways[way]).count() as i64;
        assert_eq!([parts(0), parts(1)], [up, down], "{dh} {lengths:?}");

        let gross = |height| tank.gross(height) as i64;
        let off = |height| gross(height) + gross(mirrored(height, dh)) - gross(DipHeight(dh));
        let seen: BTreeSet<i64> = (0..=dh).map(|height| off(DipHeight(height))).collect();
        assert!(
            seen.iter().copied().eq(-up..=down),
            "{dh} {lengths:?}: {seen:?}"
        );
    }
    assert_eq!(WITHIN, 3);
}

/// The paper's survey with half-ellipsoids, flanges, another L1 and step.
fn paper_of([l1, l2, l3]: [u32; 3], step: u32) -> Vec<u8> {
    let mut file = PAPER.with_courses(l1, &[l1]);
    for (at, number) in [(0, 1), (20, l2), (24, l3), (28, step)] {
        put(&mut file, at, number);
    }
    file
}

/// Less than 3 v would not do: all three parts off by one, the same way. Shell, flanges
/// and heads at both heights and full:
///
/// 7827.52 and 47,149.64 of 54,977.16; 111.82 and 673.57 of 785.39; 367.57 and 3166.73
/// of 3534.29. Both are rounded up, the whole down.
///
/// 5251.38 and 15,561.40 of 20,812.78; 396.33 and 1174.45 of 1570.78; 650.31 and 2360.38
/// of 3010.69. Both are rounded down, the whole up.
#[test]
fn three_is_reached() {
    for (lengths, step, lower, [at_lower, at_upper, full], off) in [
        (
            [280_000, 2_000, 13_500],
            10_000,
            10_000,
            [
                7_828 + 112 + 368,
                47_150 + 674 + 3_167,
                54_977 + 785 + 3_534,
            ],
            3,
        ),
        (
            [106_000, 4_000, 11_500],
            5_000,
            15_000,
            [
                5_251 + 396 + 650,
                15_561 + 1_174 + 2_360,
                20_813 + 1_571 + 3_011,
            ],
            -3,
        ),
    ] {
        let file = paper_of(lengths, step);
        let tank = lay_out(&file, Format::TODAY, 11).unwrap();
        let rows = table_of_tank(&tank).unwrap().rows;
        let row = |height: u32| rows[(height / step) as usize];
        assert_eq!(
            [row(lower), row(50_000 - lower), row(50_000)],
            [at_lower, at_upper, full]
        );
        let lower = DipHeight(lower);
        assert!(Pair::of_table(&tank.survey, &rows).contains(&Pair { lower, off }));
    }
}

/// How far the pairs of a tank's rows are off: row 0 with the last one, then the others.
fn offs(tank: &Tank) -> Vec<i64> {
    let rows = table_of_tank(tank).unwrap().rows;
    let pairs = Pair::of_table(&tank.survey, &rows);
    pairs.iter().map(|pair| pair.off).collect()
}

/// D1 or D2 beside a DH of 60,000. Half of an even difference is whole: mirrored
/// heights stay mirrored, and with a diameter below DH the law still holds. Above DH
/// the last row is below the full tank by what row 0 holds, and so far off is each pair.
/// Half of an odd one is rounded down, and a level is missing between mirrored heights:
/// in the middle 60,000·3,000,000 cubic u of the shell, which is 18 v; of the flanges
/// 60,000·40,000 and of the heads (355/113)·60,000·260,000/2, together 2.7 v.
#[test]
fn diameters_beside_dh() {
    let lengths = [3_000_000, 20_000, 260_000];
    for (d, of_shell, of_heads) in [
        (59_000, [0, 0, 0, 0], [0, -1, 0, -1]),
        (61_000, [1_102, 1_101, 1_102, 1_101], [35, 35, 34, 34]),
        (59_999, [0, -13, -17, -19], [0, -1, -1, -4]),
        (60_001, [0, -13, -17, -17], [0, -1, -2, -4]),
    ] {
        let of_d1 = offs(&tank(60_000, [d, 60_000], lengths));
        let of_d2 = offs(&tank(60_000, [60_000, d], lengths));
        assert_eq!(
            (&of_d1[..], &of_d2[..]),
            (&of_shell[..], &of_heads[..]),
            "{d}"
        );
    }
}

/// Deadwood low in the tank takes all of it at both heights, and that is once too often.
/// Spread evenly over the tank or around its middle it keeps the law.
#[test]
fn deadwood() {
    for (items, wanted) in [
        (vec![], [0, 0, 0]),
        (vec![(0, 10_000, 100)], [0, -100, -100]),
        (vec![(10_000, 20_000, -100)], [0, 0, 100]),
        (vec![(0, 50_000, 100)], [0, 0, 0]),
        (vec![(20_000, 30_000, 100)], [0, 0, 0]),
        (vec![(0, 10_000, 100), (40_000, 50_000, 100)], [0, 0, 0]),
    ] {
        let file = PAPER.with_deadwood(&items);
        let tank = lay_out(&file, Format::TODAY, 6).unwrap();
        assert_eq!(offs(&tank), wanted, "{items:?}");
    }
}

/// Spherical caps before rounding: by how many cubic u mirrored heights differ from full
/// heads, the least and the greatest of these heights.
fn caps_off(d: u32, h: u32, heights: impl Iterator<Item = u32>) -> (i128, i128) {
    let domes = Domes::new(Dome { d, h });
    let row = |height| domes.row(ShellHeight(height)).top as i128;
    let offs = heights.map(|height| row(height) + row(d - height) - row(d));
    offs.fold((0, 0), |(least, greatest), off| {
        (least.min(off), greatest.max(off))
    })
}

/// Where D2 is whole mm, the cells of caps are the same from above and from below, and
/// their rows keep the law too, though it does not speak of them. Where it is not, they
/// do not before rounding; but of the tanks that were tried all but the largest are off
/// by less than half a v, and so by one at most when rounded.
#[test]
fn spherical_caps() {
    for (d, h) in [
        (50_000, 1),
        (50_100, 150),
        (50_000, 25_000),
        (60_000, 17_171),
    ] {
        assert_eq!(caps_off(d, h, 0..=d), (0, 0), "{d} {h}");
    }
    for (d, h) in [
        (50_001, 25_000),
        (50_050, 25_025),
        (50_050, 100),
        (120_050, 60_025),
    ] {
        let (least, greatest) = caps_off(d, h, 0..=d);
        assert!(least < 0 || greatest > 0, "{d} {h}");
        assert!(
            -1_000_000_000 < least && greatest < 1_000_000_000,
            "{d} {h}"
        );
    }
}

/// One of the largest, found by a search: its caps are off by 0.52 v before rounding, at
/// 412,738.506 and 1,766,457.506 of 2,179,195.491 v, and by 2 v after it. With shell and
/// flanges it makes 4. No step divides this DH, so no table has both rows; none was
/// found that is off by more than 3 v for its caps.
#[test]
fn caps_far_off() {
    let [d, lower] = [499_165, 148_667];
    assert_eq!(caps_off(d, 105_138, lower..=lower), (0, 5_217_672_800));
    let survey = tank_of(2, d, 1_500_000, 4_000, 105_138);
    let tank = Tank::new(&survey, Dimensions { d1: d, d2: d });
    let gross = |height| tank.gross(DipHeight(height));
    assert_eq!(gross(lower), 7_332_294 + 39_106 + 412_739);
    assert_eq!(gross(d - lower), 22_021_811 + 117_450 + 1_766_458);
    assert_eq!(gross(d), 29_354_104 + 156_555 + 2_179_195);
    assert_eq!(gross(lower) + gross(d - lower), gross(d) + 4);
}
