//! Every refusal of making a table, at its edges, and their order; and of a file
//! with a header of 48 bytes, as the converter gives them.

mod common;

use common::Piece::*;
use common::*;
use reference::make_table;

/// Each of these as a test of files of either format.
macro_rules! in_either_format {
    ($($test:ident,)+) => {
        mod header_of_48_bytes {
            $(#[test] fn $test() { super::$test(super::OLD_PAPER) })+
        }
        mod header_of_56_bytes {
            $(#[test] fn $test() { super::$test(super::PAPER) })+
        }
    };
}

in_either_format! {
    one_file_length,
    two_counts,
    three_course_section,
    three_overlap,
    three_deadwood_section,
    four_head_kind,
    five_at_every_limit,
    five_in_deadwood,
    five_header_then_courses_then_deadwood_then_seams,
    six_course_lengths,
    seven_diameters,
    fourteen_long_caps,
    nine_a_row_that_falls,
    nine_for_a_row_below_zero,
    tested_in_this_order,
}

fn one_file_length(paper: Paper) {
    let mut file = paper.survey();
    let header = paper.course();
    for length in [0, 1].into_iter().chain(47..header) {
        assert_eq!(paper.refused(&file[..length]), (1, 0), "{length}");
    }
    // Enough for the header but not for a course.
    assert_eq!(paper.refused(&file[..header]), (3, 0));
    for (length, wanted) in [(65_536, (0, 0)), (65_537, (1, 0)), (1_000_000, (1, 0))] {
        file.resize(length, 7);
        assert_eq!(paper.refused(&file), wanted, "{length}");
    }
}

fn two_counts(paper: Paper) {
    for (at, bad) in [(32, &[0, 41, u32::MAX][..]), (40, &[65, u32::MAX])] {
        for &count in bad {
            assert_eq!(paper.refused(&paper.but(at, count)), (2, 0), "{at} {count}");
        }
    }
    // 40 courses and 64 items are allowed.
    let file = paper.of(&[
        Courses(&[[160_221, 160_221, 2_500, 500]; 40]),
        Seams(&[NO_SEAMS; 40]),
        Deadwood(&[[0, 50_000, 1]; 64]),
    ]);
    assert_eq!(file.len(), paper.either(1_456, 1_944));
    assert_eq!(paper.refused(&file), (0, 0));
}

/// "a seam count other than the course count is 2".
#[test]
fn two_seam_count() {
    for count in [0, 2, 40, 41, 257, 0x1_0001, u32::MAX] {
        assert_eq!(PAPER.refused(&PAPER.but(48, count)), (2, 0));
    }
    let three = PAPER.with_courses(100_000, &[40_000, 30_000, 30_000]);
    for (count, wanted) in [(0, 2), (1, 2), (2, 2), (3, 0), (4, 2), (40, 2)] {
        let mut file = three.clone();
        put(&mut file, 48, count);
        assert_eq!(PAPER.refused(&file), (wanted, 0));
    }
    // A bad course count, also where the seam count is the same.
    for count in [0, 41, u32::MAX] {
        let mut file = PAPER.but(32, count);
        put(&mut file, 48, count);
        assert_eq!(PAPER.refused(&file), (2, 0));
    }
}

fn three_course_section(paper: Paper) {
    let header = paper.course() as u32;
    // It "starts at byte 48 or later", or 56.
    let in_header = [0, 44].into_iter().chain(47..header);
    // Offsets that come round 32 bits, some to a place inside the file.
    let round = [
        u32::MAX,
        u32::MAX - 15,
        u32::MAX - 14,
        header.wrapping_sub(16),
        1 << 31,
    ];
    for offset in in_header.chain(round) {
        assert_eq!(paper.refused(&paper.but(36, offset)), (3, 0), "{offset}");
    }
    // It "ends inside the file": here it is the last section.
    let mut last = paper.of(&[Seams(&[NO_SEAMS]), Courses(&[PAPER_COURSE])]);
    let length = last.len();
    assert_eq!(paper.refused(&last), (0, 0));
    assert_eq!(paper.refused(&last[..length - 1]), (3, 0));
    put(&mut last, 36, length as u32 - 15);
    assert_eq!(paper.refused(&last), (3, 0));
    // Any offset with room behind it, also none of whole words.
    let file = paper.of(&[Gap(&[9; 3]), Courses(&[PAPER_COURSE]), Seams(&[NO_SEAMS])]);
    assert_eq!(paper.refused(&file), (0, 0));
}

#[test]
fn three_seam_section() {
    // Seams right behind the course; one byte earlier they overlap it, one byte
    // later they end outside the file. From byte 60 on they overlap it too.
    for (offset, wanted) in [
        (0, 3),
        (44, 3),
        (48, 3),
        (55, 3),
        (56, 3),
        (60, 3),
        (71, 3),
        (72, 0),
        (73, 3),
        (84, 3),
        (u32::MAX, 3),
        (u32::MAX - 11, 3),
        (72u32.wrapping_sub(12), 3),
        (1 << 31, 3),
    ] {
        assert_eq!(
            PAPER.refused(&PAPER.but(52, offset)),
            (wanted, 0),
            "{offset}"
        );
    }
    assert_eq!(PAPER.refused(&PAPER.survey()[..83]), (3, 0));
    // A header of 48 bytes is no place for them, and 55 still is the header.
    let mut file = PAPER.of(&[Gap(&[0; 24]), Courses(&[PAPER_COURSE]), Seams(&[NO_SEAMS])]);
    file.truncate(96);
    for (offset, wanted) in [(48, 3), (55, 3), (56, 0), (68, 0), (69, 3)] {
        put(&mut file, 52, offset);
        assert_eq!(PAPER.refused(&file), (wanted, 0), "{offset}");
    }
}

fn three_overlap(paper: Paper) {
    // Deadwood behind all the rest: there they touch, a byte earlier they
    // overlap; further on in front it overlaps the course.
    let touching = paper.with_deadwood(&[(0, 50_000, 1)]);
    assert_eq!(paper.refused(&touching), (0, 0));
    let (course, end) = (paper.course(), paper.deadwood());
    for offset in [course, course + 4, course + 15, end - 1] {
        let mut file = touching.clone();
        put(&mut file, 44, offset as u32);
        assert_eq!(paper.refused(&file), (3, 0), "{offset}");
    }
    // Deadwood before the course; then the course begins in its last byte.
    let mut file = paper.of(&[
        Deadwood(&[[0, 50_000, 1]]),
        Courses(&[PAPER_COURSE]),
        Seams(&[NO_SEAMS]),
    ]);
    assert_eq!(paper.refused(&file), (0, 0));
    put(&mut file, 36, course as u32 + 11);
    assert_eq!(paper.refused(&file), (3, 0));
}

#[test]
fn three_overlap_of_seams_and_deadwood() {
    let touching = PAPER.with_deadwood(&[(0, 50_000, 1)]);
    // Deadwood onto the seams: at their first byte.
    let mut file = touching.clone();
    put(&mut file, 44, SEAMS as u32);
    assert_eq!(PAPER.refused(&file), (3, 0));
    // Seams onto the deadwood, from either side.
    let mut file = touching;
    file.resize(200, 0);
    for (offset, wanted) in [(73, 3), (84, 3), (95, 3), (96, 0)] {
        put(&mut file, 52, offset);
        assert_eq!(PAPER.refused(&file), (wanted, 0), "{offset}");
    }
}

/// All six orders of the sections in the file, end to end. The readings, less a
/// rise of 305, are the paper's; the item takes 1 v from half of DH on.
#[test]
fn three_any_order() {
    let parts = [
        Courses(&[[160_526, 160_526, 100_000, 500]]),
        Deadwood(&[[0, 50_000, 1]]),
        Seams(&[[4, 300, 1_200]]),
    ];
    for order in [
        [0, 1, 2],
        [0, 2, 1],
        [1, 0, 2],
        [1, 2, 0],
        [2, 0, 1],
        [2, 1, 0],
    ] {
        let file = PAPER.of(&order.map(|index| parts[index]));
        let rows = make_table(&file, 6).unwrap().rows;
        assert_eq!(rows, [0, 2_796, 7_334, 12_300, 16_838, 19_634], "{order:?}");
    }
}

fn three_deadwood_section(paper: Paper) {
    let (header, end) = (paper.course() as u32, paper.deadwood() as u32);
    let sound = paper.with_deadwood(&[(0, 50_000, 1)]);
    for offset in [
        0,
        47,
        header - 1,
        end + 1,
        end + 12,
        u32::MAX,
        u32::MAX - 11,
        end.wrapping_sub(12),
    ] {
        let mut file = sound.clone();
        put(&mut file, 44, offset);
        assert_eq!(paper.refused(&file), (3, 0), "{offset}");
    }
    // "An empty section's offset is not looked at."
    let edges = [header, header + 16, end].map(|edge| [edge - 1, edge, edge + 1]);
    for &offset in edges.as_flattened().iter().chain(&[0, 47, u32::MAX]) {
        assert_eq!(paper.refused(&paper.but(44, offset)), (0, 0), "{offset}");
    }
}

fn four_head_kind(paper: Paper) {
    for kind in [3, 4, 256, 258, 0x0200_0000, u32::MAX] {
        assert_eq!(paper.refused(&paper.but(0, kind)), (4, 0));
    }
    // Kinds 1 and 2 need an L3 of at least 1.
    for kind in [1, 2] {
        let mut file = paper.but(0, kind);
        assert_eq!(paper.refused(&file), (5, 24));
        put(&mut file, 24, 1);
        assert_eq!(paper.refused(&file), (0, 0));
    }
}

/// Byte offset, smallest and largest of each number but L3, in the header and
/// in the course and its seams.
fn numbers(paper: Paper) -> Vec<(usize, u32, u32)> {
    let course = paper.course();
    let mut numbers = vec![
        (4, 50_000, 500_000),
        (8, 100_000, 3_000_000),
        (12, 150_000, 1_600_000),
        (16, 150_000, 1_600_000),
        (20, 0, 20_000),
        (28, 100, 10_000),
        (course, 150_000, 1_600_000),
        (course + 4, 150_000, 1_600_000),
        (course + 8, 1, 3_000_000),
        (course + 12, 100, 5_000),
    ];
    if paper.format.has_seams() {
        numbers.extend([(SEAMS, 0, 12), (SEAMS + 4, 0, 1_000), (SEAMS + 8, 0, 5_000)]);
    }
    numbers
}

fn five_at_every_limit(paper: Paper) {
    for (at, low, high) in numbers(paper) {
        for number in [low.wrapping_sub(1), high + 1, u32::MAX] {
            assert_eq!(paper.refused(&paper.but(at, number)), (5, at as u32));
        }
        for number in [low, high] {
            assert_ne!(paper.refused(&paper.but(at, number)).0, 5);
        }
    }
    for l3 in [1, u32::MAX] {
        assert_eq!(paper.refused(&paper.but(24, l3)), (5, 24));
    }
    // Spherical caps of 260,000 are inside these limits, but too long for D2.
    for (kind, longest) in [(1, (0, 0)), (2, (14, 0))] {
        for (l3, wanted) in [
            (0, (5, 24)),
            (1, (0, 0)),
            (260_000, longest),
            (260_001, (5, 24)),
            (u32::MAX, (5, 24)),
        ] {
            assert_eq!(paper.refused(&paper.headed(kind, l3)), wanted);
        }
    }
}

fn five_in_deadwood(paper: Paper) {
    let most = 10_000_000;
    let high = paper.deadwood() as u32 + 4;
    let volume = high + 4;
    let cases = [
        ((0, 1, 0), (0, 0)),
        ((49_999, 50_000, 0), (0, 0)),
        // "Low < high ≤ DH; if not, the high number is the bad one."
        ((0, 0, 0), (5, high)),
        ((1, 1, 0), (5, high)),
        ((2, 1, 0), (5, high)),
        ((0, 50_001, 0), (5, high)),
        ((50_000, 50_000, 0), (5, high)),
        ((60_000, 70_000, 0), (5, high)),
        ((u32::MAX, 1, 0), (5, high)),
        ((u32::MAX, u32::MAX, 0), (5, high)),
        ((0, u32::MAX, 0), (5, high)),
        // The volume comes after the high height.
        ((0, 50_000, -most), (0, 0)),
        ((0, 50_000, -most - 1), (5, volume)),
        ((0, 50_000, most + 1), (5, volume)),
        ((0, 50_000, i32::MIN), (5, volume)),
        ((0, 50_000, i32::MAX), (5, volume)),
        ((0, 0, i32::MAX), (5, high)),
        // Inside the limits, but more than the tank holds.
        ((0, 50_000, most), (9, 1)),
    ];
    for (item, wanted) in cases {
        assert_eq!(
            paper.refused(&paper.with_deadwood(&[item])),
            wanted,
            "{item:?}"
        );
    }
}

/// Two of each: seams, deadwood, then courses. The order in the file is not that
/// of refusals. The readings, less the rise if there are seams, are the paper's.
fn courses_last(paper: Paper) -> Vec<u8> {
    let reading = paper.either(160_221, 160_526);
    paper.of(&[
        Seams(&[[4, 300, 1_200]; 2]),
        Deadwood(&[[0, 50_000, 1]; 2]),
        Courses(&[60_000, 40_000].map(|length| [reading, reading, length, 500])),
    ])
}

fn five_header_then_courses_then_deadwood_then_seams(paper: Paper) {
    let sound = courses_last(paper);
    assert_eq!(paper.refused(&sound), (0, 0));
    let old = [
        4, 8, 12, 16, 20, 24, 28, // header
        72, 76, 80, 84, 88, 92, 96, 100, // courses
        52, 56, 64, 68, // deadwood: high and volume of each
    ];
    let today = [
        4, 8, 12, 16, 20, 24, 28, // header
        104, 108, 112, 116, 120, 124, 128, 132, // courses
        84, 88, 96, 100, // deadwood: high and volume of each
        56, 60, 64, 68, 72, 76, // seams: N, t and w of each
    ];
    let in_order = paper.either(&old[..], &today);
    for first in 0..in_order.len() {
        let mut file = sound.clone();
        for &at in &in_order[first..] {
            put(&mut file, at, 0x7fff_ffff);
        }
        assert_eq!(paper.refused(&file), (5, in_order[first] as u32));
    }
}

#[test]
fn five_corrected_readings_last() {
    let sound = courses_last(PAPER);
    // A corrected reading comes last, at the reading: the rise is 305.
    for (at, reading, wanted) in [
        (104, 150_305, (0, 0)),
        (104, 150_304, (5, 104)),
        (108, 150_304, (5, 108)),
        (120, 150_000, (5, 120)),
        (124, 150_304, (5, 124)),
    ] {
        let mut file = sound.clone();
        // The other reading of a course makes up for it, so that D1 stays.
        let other = if at % 8 == 0 { at + 4 } else { at - 4 };
        put(&mut file, at, reading);
        put(&mut file, other, 2 * 160_526 - reading);
        assert_eq!(PAPER.refused(&file), wanted, "{at} {reading}");
        if wanted.0 == 5 {
            // After the last number of the seams, before the course lengths.
            put(&mut file, 76, 5_001);
            assert_eq!(PAPER.refused(&file), (5, 76));
            put(&mut file, 76, 1_200);
            put(&mut file, 8, 200_000);
            assert_eq!(PAPER.refused(&file), wanted);
        }
    }
}

#[test]
fn five_corrected_readings() {
    // The first bad one, course by course, the first before the second. Each
    // course has its own rise: none, and 305.
    let mut file = PAPER.with_courses(100_000, &[50_000; 2]);
    let seams = COURSE + 2 * 16 + 12;
    for (at, word) in [(0, 4), (4, 300), (8, 1_200)] {
        put(&mut file, seams + at, word);
    }
    let [first, second] = [COURSE, COURSE + 16];
    for (readings, wanted) in [
        ([150_000, 150_000, 170_747, 170_747], (0, 0)),
        ([150_000, 150_000, 150_304, 150_304], (5, second as u32)),
        ([150_000, 150_000, 150_305, 150_304], (5, second as u32 + 4)),
        ([150_000, 149_999, 150_304, 150_304], (5, first as u32 + 4)),
    ] {
        let places = [first, first + 4, second, second + 4];
        for (at, reading) in places.into_iter().zip(readings) {
            put(&mut file, at, reading);
        }
        assert_eq!(PAPER.refused(&file), wanted, "{readings:?}");
    }
    // A reading at its own upper limit loses the rise and stays inside.
    let mut seamed = PAPER.seamed(12, 1_000, 5_000);
    put(&mut seamed, COURSE, 1_600_000);
    assert_eq!(PAPER.refused(&seamed), (7, 0));
    put(&mut seamed, COURSE, 1_600_001);
    assert_eq!(PAPER.refused(&seamed), (5, COURSE as u32));
    // The largest rise there is, 6,925, on the smallest reading.
    for (reading, wanted) in [
        (150_000, (5, COURSE as u32)),
        (156_924, (5, COURSE as u32)),
        (156_925, (0, 0)),
    ] {
        put(&mut seamed, COURSE, reading);
        put(&mut seamed, COURSE + 4, 2 * 167_146 - reading);
        assert_eq!(PAPER.refused(&seamed), wanted, "{reading}");
    }
}

#[test]
fn five_seam_numbers() {
    // Any two of the three may be at their limits when the third is past it.
    for (at, most) in [(0, 12), (4, 1_000), (8, 5_000)] {
        for number in [most + 1, 0x8000_0000, u32::MAX] {
            let mut file = PAPER.seamed(12, 1_000, 5_000);
            put(&mut file, SEAMS + at, number);
            assert_eq!(PAPER.refused(&file), (5, (SEAMS + at) as u32));
            // Seams without a rise are looked at all the same.
            let mut file = PAPER.survey();
            put(&mut file, SEAMS + at, number);
            assert_eq!(PAPER.refused(&file), (5, (SEAMS + at) as u32));
        }
    }
}

fn six_course_lengths(paper: Paper) {
    // Request E1: at most 100 u from L1 for each course, here one.
    for (at, number, wanted) in [
        (paper.course() + 8, 99_899, (6, 0)),
        (paper.course() + 8, 99_900, (0, 0)),
        (paper.course() + 8, 100_100, (0, 0)),
        (paper.course() + 8, 100_101, (6, 0)),
        (8, 100_100, (0, 0)),
        (8, 100_101, (6, 0)),
    ] {
        assert_eq!(paper.refused(&paper.but(at, number)), wanted);
    }
    // A single course may be as long as the longest shell.
    let mut file = paper.but(8, 3_000_000);
    put(&mut file, paper.course() + 8, 3_000_000);
    assert_eq!(paper.refused(&file), (0, 0));
}

/// The paper's survey with a DH, outer diameters and a thickness. A sum of
/// 710·k/113 gives an outer diameter k.
fn with_diameters(paper: Paper, dh: u32, outer_1: u32, outer_2: u32, thickness: u32) -> Vec<u8> {
    let sum = |outer: u32| (710 * u64::from(outer) / 113) as u32;
    let mut file = paper.but(4, dh);
    put(&mut file, 12, sum(outer_2) / 2);
    put(&mut file, 16, sum(outer_2) - sum(outer_2) / 2);
    put(&mut file, paper.course(), sum(outer_1) / 2);
    put(
        &mut file,
        paper.course() + 4,
        sum(outer_1) - sum(outer_1) / 2,
    );
    put(&mut file, paper.course() + 12, thickness);
    file
}

fn seven_diameters(paper: Paper) {
    let cases = [
        // The smallest diameter.
        (55_000, 50_000, 55_000, 0),
        (55_000, 49_999, 55_000, 7),
        (55_000, 55_000, 50_000, 0),
        (55_000, 55_000, 49_999, 7),
        // The largest.
        (495_000, 500_000, 495_000, 0),
        (495_000, 500_001, 495_000, 7),
        (495_000, 495_000, 500_000, 0),
        (495_000, 495_000, 500_001, 7),
        // 10,000 from DH.
        (70_000, 60_000, 70_000, 0),
        (70_000, 59_999, 70_000, 7),
        (70_000, 80_000, 70_000, 0),
        (70_000, 80_001, 70_000, 7),
        (70_000, 70_000, 60_000, 0),
        (70_000, 70_000, 59_999, 7),
        (70_000, 70_000, 80_000, 0),
        (70_000, 70_000, 80_001, 7),
    ];
    for (dh, d1, d2, number) in cases {
        let file = with_diameters(paper, dh, d1 + 600, d2 + 600, 300);
        assert_eq!(paper.refused(&file), (number, 0), "{dh} {d1} {d2}");
    }
    // The smallest circumferences with the thickest wall.
    assert_eq!(
        paper.refused(&with_diameters(paper, 50_000, 47_747, 47_747, 5_000)),
        (7, 0)
    );
}

/// Caps of D2 50,000, then of D2 50,001, for which 113·(160,221 + 160,227)/710
/// is 51,000.88, nearest 51,001.
fn fourteen_long_caps(paper: Paper) {
    for right in [160_221, 160_227] {
        for (l3, wanted) in [
            (24_999, (0, 0)),
            (25_000, (0, 0)),
            (25_001, (14, 0)),
            (25_002, (14, 0)),
            (260_000, (14, 0)),
        ] {
            let mut caps = paper.headed(2, l3);
            put(&mut caps, 16, right);
            assert_eq!(paper.refused(&caps), wanted, "{right} {l3}");
            // Half-ellipsoids may be as long.
            put(&mut caps, 0, 1);
            assert_eq!(paper.refused(&caps), (0, 0), "{right} {l3}");
        }
    }
    // Right after 7.
    let mut caps = paper.headed(2, 25_001);
    put(&mut caps, 4, 60_001);
    assert_eq!(paper.refused(&caps), (7, 0));
}

#[test]
fn fourteen_between_seven_and_eight() {
    let mut caps = PAPER.headed(2, 25_001);
    assert_eq!(outcome(&caps, 0), (14, 0));
    put(&mut caps, 4, 60_001);
    assert_eq!(outcome(&caps, 0), (7, 0));
    assert_eq!(outcome(&PAPER.headed(2, 25_000), 0), (8, 0));
}

#[test]
fn eight_table_length() {
    for (length, number) in [(0, 8), (5, 8), (6, 0), (7, 0), (100_000, 0)] {
        assert_eq!(outcome(&PAPER.survey(), length), (number, 0));
    }
    let seven_rows = PAPER.but(28, 9_999);
    for (length, number) in [(6, 8), (7, 0)] {
        assert_eq!(outcome(&seven_rows, length), (number, 0));
    }
}

fn nine_a_row_that_falls(paper: Paper) {
    // The rows without deadwood are 0, 2796, 7334, 12301, 16839, 19635.
    let cases = [
        ((0, 10_000, 2_796), (0, 0)),
        ((0, 10_000, 2_797), (9, 1)),
        ((20_000, 30_000, 4_967), (0, 0)),
        ((20_000, 30_000, 4_968), (9, 3)),
        ((40_000, 50_000, 2_796), (0, 0)),
        ((40_000, 50_000, 2_797), (9, 5)),
        ((49_999, 50_000, 2_797), (9, 5)),
        ((0, 1, 2_797), (9, 1)),
    ];
    for (item, wanted) in cases {
        assert_eq!(
            paper.refused(&paper.with_deadwood(&[item])),
            wanted,
            "{item:?}"
        );
    }
    // The first of two falls.
    let two = [(40_000, 50_000, 9_000), (20_000, 30_000, 9_000)];
    assert_eq!(paper.refused(&paper.with_deadwood(&two)), (9, 3));
}

/// "10 is retired": a row below zero has fallen, or one before it has.
fn nine_for_a_row_below_zero(paper: Paper) {
    // The rows are 0, 2796, 7334, 12301, 16839, 19635 less the items.
    let cases: [(&[(u32, u32, i32)], _); 4] = [
        // Row 1 is -1; row 1 is -2,204, the others are as they were; row 5 is -1.
        (&[(0, 10_000, 2_797)], (9, 1)),
        (&[(0, 10_000, 5_000), (10_000, 20_000, -5_000)], (9, 1)),
        (&[(40_000, 50_000, 19_636)], (9, 5)),
        // Row 4 is -461, and row 3, 1, is below row 2.
        (&[(20_000, 30_000, 12_300), (30_000, 40_000, 5_000)], (9, 3)),
    ];
    for (items, wanted) in cases {
        assert_eq!(
            paper.refused(&paper.with_deadwood(items)),
            wanted,
            "{items:?}"
        );
    }
}

/// A survey with every fault at once; the faults are mended one by one. The
/// table lent has a row too few; the converter has room for every table.
fn tested_in_this_order(paper: Paper) {
    let refused = |file: &[u8]| paper.refused_lending(5, file);
    let (course, deadwood) = (paper.course(), paper.deadwood());
    let mut file = paper.with_deadwood(&[(0, 1, 5_000)]);
    let length = file.len();
    file.resize(70_000, 0);
    for (at, word) in [
        (32, 0),
        (36, 0),
        (0, 3),
        (24, 25_001),
        (28, 1),
        (course + 8, 99_899),
        (course + 12, 5_000),
    ] {
        put(&mut file, at, word);
    }
    if paper.format.has_seams() {
        put(&mut file, 48, 2);
    }
    assert_eq!(refused(&file), (1, 0));
    file.truncate(length);
    assert_eq!(refused(&file), (2, 0));
    put(&mut file, 32, 1);
    if paper.format.has_seams() {
        assert_eq!(refused(&file), (2, 0));
        put(&mut file, 48, 1);
    }
    assert_eq!(refused(&file), (3, 0));
    for (at, word, wanted) in [
        (36, course as u32, (4, 0)),
        (0, 2, (5, 28)),
        (28, 10_000, (6, 0)),
        (course + 8, 100_000, (7, 0)),
        (course + 12, 500, (14, 0)),
        // Caps of 0.01 mm hold less than half a v and leave the rows as they are.
        (24, 1, paper.either((9, 1), (8, 0))),
    ] {
        put(&mut file, at, word);
        assert_eq!(refused(&file), wanted);
    }
    let refused = |file: &[u8]| paper.refused_lending(6, file);
    assert_eq!(refused(&file), (9, 1));
    put(&mut file, deadwood + 8, 2_796);
    assert_eq!(refused(&file), (0, 0));
}
