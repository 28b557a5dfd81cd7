//! Request E4: the tape rise over seams by document 000's formula 1,
//! 2Ntw/d + (8Nt/3)·root(t/d), worked out by hand, and what it does to a table.

mod common;

use common::*;
use reference::numbers::root_down;
use reference::rise::{corrected, corrected_course, Seams};
use reference::survey::Course;
use reference::{make_table, Format};

fn seams(number: u32, thickness: u32, width: u32) -> Seams {
    Seams {
        number,
        thickness,
        width,
    }
}

fn terms(seams: Seams, dh: u32) -> (u128, u128) {
    (seams.first_term(dh), seams.second_term(dh))
}

/// Four seams 3 mm thick and 12 mm wide on a tank of 500 mm: N = 4, t = 300 u,
/// w = 1,200 u, d = 50,000 u.
///
/// First term: 2·4·300·1,200/50,000 = 2,880,000/50,000 = 57.6, nearest 58.
/// Second term: 64·4²·300³/(9·50,000) = 1,024·27,000,000/450,000 = 61,440; 247²
/// is 61,009 and 248² is 61,504, so 247. In mm: 8·4·3/3·root(3/500) = 32·0.07746
/// = 2.4787. Together 305 u.
#[test]
fn worked_out_by_hand() {
    let four = seams(4, 300, 1_200);
    assert_eq!(terms(four, 50_000), (58, 247));
    assert_eq!(four.rise(50_000), 305);
}

/// Two seams 2 mm thick and 15 mm wide on a tank of 2,600 mm: N = 2, t = 200,
/// w = 1,500, d = 260,000.
///
/// First: 2·2·200·1,500/260,000 = 1,200,000/260,000 = 4.615, nearest 5.
/// Second: 64·4·8,000,000/(9·260,000) = 2,048,000,000/2,340,000 = 875.2; 29² is
/// 841 and 30² is 900, so 29. Together 34.
#[test]
fn a_larger_tank() {
    let two = seams(2, 200, 1_500);
    assert_eq!(terms(two, 260_000), (5, 29));
    assert_eq!(two.rise(260_000), 34);
}

/// The largest that the limits allow: 2·12·1,000·5,000/50,000 = 2,400;
/// 64·144·10⁹/450,000 = 20,480,000, of which the root is 4,525.48; together
/// 6,925, far less than the smallest reading. On the largest tank: 240, and
/// 64·144·10⁹/4,500,000 = 2,048,000, of which the root is 1,431.08.
#[test]
fn the_largest() {
    let largest = seams(12, 1_000, 5_000);
    assert_eq!(terms(largest, 50_000), (2_400, 4_525));
    assert_eq!(largest.rise(50_000), 6_925);
    assert_eq!(terms(largest, 500_000), (240, 1_431));
}

/// Request E5: 2·1·100·125/50,000 is exactly 0.5 and goes to 0; with one u more of
/// width it is 0.504. 2·1·100·375/50,000 is 1.5 and goes to 2, one u less is 1.496.
/// 625 gives 2.5, which goes to 2, and 875 gives 3.5, which goes to 4.
#[test]
fn the_first_terms_half_goes_to_the_even_number() {
    for (widths, wanted) in [
        ([124, 125, 126], [0, 0, 1]),
        ([374, 375, 376], [1, 2, 2]),
        ([624, 625, 626], [2, 2, 3]),
        ([874, 875, 876], [3, 4, 4]),
    ] {
        let terms = widths.map(|width| seams(1, 100, width).first_term(50_000));
        assert_eq!(terms, wanted, "{widths:?}");
    }
}

/// 64·3²·500³/(9·50,000) = 64·125,000,000/50,000 = 160,000 = 400². One u
/// thinner: 64·499³/50,000 = 159,041.9, and 398² is 158,404 while 399² is 159,201.
#[test]
fn the_second_terms_exact_root() {
    assert_eq!(seams(3, 500, 0).second_term(50_000), 400);
    assert_eq!(seams(3, 499, 0).second_term(50_000), 398);
    // A tank that is one u larger has a root just below.
    assert_eq!(seams(3, 500, 0).second_term(50_001), 399);
}

/// The two terms are rounded each for itself. N = 1, t = 100, w = 375, d =
/// 50,000: 1.5 and, of 64·1,000,000/450,000 = 142.2, 11.93. Together that is
/// 13.43; each for itself 2 and 11. With w = 125 the first is 0.5, together 12.43;
/// each for itself 0 and 11.
#[test]
fn each_term_alone() {
    assert_eq!(terms(seams(1, 100, 375), 50_000), (2, 11));
    assert_eq!(seams(1, 100, 375).rise(50_000), 13);
    assert_eq!(terms(seams(1, 100, 125), 50_000), (0, 11));
    assert_eq!(seams(1, 100, 125).rise(50_000), 11);
    // N = 1, t = 100, w = 100: 0.4 and 11.93, 12.33 together; 0 and 11.
    assert_eq!(seams(1, 100, 100).rise(50_000), 11);
    // N = 1, t = 20, w = 1,000: 0.8 and, of 64·8,000/450,000, 1.07; 1 and 1.
    assert_eq!(seams(1, 20, 1_000).rise(50_000), 2);
}

#[test]
fn no_rise() {
    assert_eq!(Seams::NONE.rise(50_000), 0);
    assert_eq!(seams(0, 1_000, 5_000).rise(50_000), 0);
    assert_eq!(seams(12, 0, 5_000).rise(50_000), 0);
    // 2·5,000/50,000 = 0.2, and 64/450,000.
    assert_eq!(seams(1, 1, 5_000).rise(50_000), 0);
    // Without a width there is the second term alone.
    assert_eq!(terms(seams(4, 300, 0), 50_000), (0, 247));
}

/// Of every N and many t the second term is the root of the paper's fraction.
#[test]
fn every_root() {
    for number in 0..=12 {
        for thickness in (0..=1_000).step_by(7).chain([1, 999, 1_000]) {
            for dh in [50_000, 50_001, 123_456, 500_000] {
                let term = seams(number, thickness, 0).second_term(dh);
                let [n, t, d] = [number, thickness, dh].map(u128::from);
                let top = 64 * n * n * t * t * t;
                assert!(9 * d * term * term <= top);
                assert!(9 * d * (term + 1) * (term + 1) > top);
                assert_eq!(term, root_down(top / (9 * d)));
            }
        }
    }
}

/// A rise that is larger than the reading does not wrap.
#[test]
fn corrected_readings() {
    let largest = seams(12, 1_000, 5_000);
    for (reading, wanted) in [
        (156_925, 150_000),
        (156_924, 149_999),
        (6_925, 0),
        (6_924, -1),
        (0, -6_925),
    ] {
        assert_eq!(corrected(reading, largest, 50_000), wanted);
    }
    let course = Course {
        first: 160_221,
        second: 170_000,
        length: 100_000,
        thickness: 500,
    };
    assert_eq!(
        corrected_course(course, seams(4, 300, 1_200), 50_000),
        Course {
            first: 159_916,
            second: 169_695,
            ..course
        }
    );
}

/// The paper's survey read over four seams: both readings 305 longer. Once they
/// have lost that, D1 and every row are the paper's, and D2 is that of the two
/// end readings, which stay.
#[test]
fn the_papers_table_over_seams() {
    let mut file = PAPER.seamed(4, 300, 1_200);
    put(&mut file, COURSE, 160_526);
    put(&mut file, COURSE + 4, 160_526);
    let table = make_table(&file, 6).unwrap();
    assert_eq!((table.d1, table.d2), (50_000, 50_000));
    assert_eq!(table.rows, [0, 2_796, 7_334, 12_301, 16_839, 19_635]);

    // Without the seams D1 is 113·2·160,526/710 = 51,097.01, less 1,000.
    for at in [SEAMS, SEAMS + 4, SEAMS + 8] {
        put(&mut file, at, 0);
    }
    let table = make_table(&file, 6).unwrap();
    assert_eq!((table.d1, table.d2), (50_097, 50_000));

    // Ends that are longer give another D2, with and without seams.
    put(&mut file, 12, 160_526);
    put(&mut file, 16, 160_526);
    assert_eq!(make_table(&file, 6).unwrap().d2, 50_097);
    put(&mut file, SEAMS, 4);
    put(&mut file, SEAMS + 4, 300);
    put(&mut file, SEAMS + 8, 1_200);
    let table = make_table(&file, 6).unwrap();
    assert_eq!((table.d1, table.d2), (50_000, 50_097));
}

/// Each course loses the rise over its own seams, and "W" is made of what is
/// left. Courses of 60,000 and 40,000, readings of 160,526 and 163,668, the
/// first over four seams (305), the second over the seams of the exact root
/// above without width (400):
///
/// W = 2·160,221·60,000 + 2·163,268·40,000 = 32,287,960,000; 113·W/(710·100,000)
/// = 51,387.60, nearest 51,388; D1 is 50,388. With the seams exchanged it would
/// be W = 2·160,126·60,000 + 2·163,363·40,000 = 32,284,160,000, 51,381.55.
#[test]
fn each_course_its_own_seams() {
    let mut file = PAPER.with_courses(100_000, &[60_000, 40_000]);
    let at = COURSE + 2 * 16;
    for (offset, word) in [
        (COURSE, 160_526),
        (COURSE + 4, 160_526),
        (COURSE + 16, 163_668),
        (COURSE + 20, 163_668),
        (at, 4),
        (at + 4, 300),
        (at + 8, 1_200),
        (at + 12, 3),
        (at + 16, 500),
        (at + 20, 0),
    ] {
        put(&mut file, offset, word);
    }
    assert_eq!(make_table(&file, 6).unwrap().d1, 50_388);
}

/// "d = DH": a larger DH has a smaller rise. At DH 60,000 that over four seams
/// is 48 + 226: 2,880,000/60,000 = 48, and of 27,648,000,000/540,000 = 51,200
/// the root is 226.27.
#[test]
fn the_diameter_is_dh() {
    assert_eq!(terms(seams(4, 300, 1_200), 60_000), (48, 226));
    let mut file = PAPER.seamed(4, 300, 1_200);
    put(&mut file, 4, 60_000);
    put(&mut file, COURSE, 160_221 + 274);
    put(&mut file, COURSE + 4, 160_221 + 274);
    assert_eq!(make_table(&file, 7).unwrap().d1, 50_000);
}

/// The same file in both formats: the old one names no seams.
#[test]
fn a_format_without_seams() {
    use reference::survey::parse;
    let today = parse(&PAPER.survey(), Format::Header56).unwrap();
    let before = parse(&OLD_PAPER.survey(), Format::Header48).unwrap();
    assert_eq!(today, before);
    assert_eq!(before.seams, [Seams::NONE]);
}
