//! Every sentence for a refusal, and what a run prints on either stream.

mod common;

use common::*;
use reference::printed::{Asked, Opened, Printed};
use reference::{make_table, words, Format, Refusal};

/// The sentence for a refused survey.
fn sentence(survey: &[u8]) -> String {
    let printed = Opened::new(survey).table();
    let error = printed.error.strip_suffix('\n');
    error.expect("the survey is refused").to_string()
}

#[track_caller]
fn but(at: usize, word: u32, expected: &str) {
    assert_eq!(sentence(&PAPER.but(at, word)), expected);
}

#[track_caller]
fn with_deadwood(deadwood: &[(u32, u32, i32)], expected: &str) {
    assert_eq!(sentence(&PAPER.with_deadwood(deadwood)), expected);
}

#[test]
fn file_lengths() {
    let file = PAPER.survey();
    assert_eq!(sentence(&[]), "file of 0 bytes: must have 56 to 65536");
    assert_eq!(
        sentence(&file[..55]),
        "file of 55 bytes: must have 56 to 65536"
    );
    for length in [65_537, 70_000] {
        let mut long = file.clone();
        long.resize(length, 0);
        assert_eq!(
            sentence(&long),
            "file of more than 65536 bytes: must have 56 to 65536"
        );
    }
}

#[test]
fn counts() {
    but(32, 0, "course count 0: must be 1 to 40");
    but(
        32,
        4_294_967_295,
        "course count 4294967295: must be 1 to 40",
    );
    but(40, 65, "deadwood count 65: must be 0 to 64");
    // Both wrong: the first.
    let mut file = PAPER.but(40, 65);
    put(&mut file, 32, 41);
    assert_eq!(sentence(&file), "course count 41: must be 1 to 40");
    // Deadwood before seams, and seams where the others are sound.
    put(&mut file, 32, 40);
    assert_eq!(sentence(&file), "deadwood count 65: must be 0 to 64");
    put(&mut file, 40, 64);
    assert_eq!(
        sentence(&file),
        "seam count 1: must be 40, the course count"
    );
    but(48, 0, "seam count 0: must be 1, the course count");
    but(
        48,
        u32::MAX,
        "seam count 4294967295: must be 1, the course count",
    );
}

#[test]
fn sections() {
    let courses = "its 1 records must start at byte 56 or later and end inside the file of";
    for offset in [47, 55, 69, u32::MAX] {
        but(
            36,
            offset,
            &format!("byte offset of the courses {offset}: {courses} 84 bytes"),
        );
    }
    assert_eq!(
        sentence(&PAPER.survey()[..56]),
        format!("byte offset of the courses 56: {courses} 56 bytes")
    );

    let two = PAPER.with_deadwood(&[(0, 50_000, 1), (0, 50_000, 1)]);
    let moved = |offset| {
        let mut file = two.clone();
        put(&mut file, 44, offset);
        sentence(&file)
    };
    let deadwood =
        "its 2 records must start at byte 56 or later and end inside the file of 108 bytes";
    assert_eq!(
        moved(85),
        format!("byte offset of the deadwood 85: {deadwood}")
    );
    assert_eq!(
        moved(32),
        format!("byte offset of the deadwood 32: {deadwood}")
    );
    assert_eq!(
        moved(71),
        "byte offset of the deadwood 71: its 2 records must not overlap the courses"
    );
    // Inside the header and over the courses: the overlap is told.
    assert_eq!(
        moved(33),
        "byte offset of the deadwood 33: its 2 records must not overlap the courses"
    );
    // All sections outside: the courses are told.
    let mut all = two.clone();
    for at in [36, 44, 52] {
        put(&mut all, at, 0);
    }
    assert_eq!(
        sentence(&all),
        "byte offset of the courses 0: its 1 records must start at byte 56 or later and end \
         inside the file of 108 bytes"
    );
}

/// The sentences on the seams' place, and which fault is told of several.
#[test]
fn seam_sections() {
    let outside = |offset: u32, bytes: usize| {
        format!(
            "byte offset of the seams {offset}: its 1 records must start at byte 56 or later and \
             end inside the file of {bytes} bytes"
        )
    };
    let over = |offset: u32, other: &str| {
        format!("byte offset of the seams {offset}: its 1 records must not overlap the {other}")
    };
    for offset in [0, 44, 73, 84, u32::MAX] {
        but(52, offset, &outside(offset, 84));
    }
    for offset in [45, 55, 56, 60, 71] {
        but(52, offset, &over(offset, "courses"));
    }

    // Deadwood at 84 to 96: the seams over it, also where they end outside.
    let file = PAPER.with_deadwood(&[(0, 50_000, 1)]);
    let moved = |seams, deadwood| {
        let mut file = file.clone();
        put(&mut file, 52, seams);
        put(&mut file, 44, deadwood);
        sentence(&file)
    };
    for seams in [73, 83, 84, 95] {
        assert_eq!(moved(seams, 84), over(seams, "deadwood"));
    }
    assert_eq!(moved(96, 84), outside(96, 96));
    // Seams over the courses are told before deadwood outside the file; that
    // before seams over the deadwood, and before seams outside.
    assert_eq!(moved(71, 85), over(71, "courses"));
    let deadwood_outside = "byte offset of the deadwood 85: its 1 records must start at byte 56 \
                            or later and end inside the file of 96 bytes";
    assert_eq!(moved(84, 85), deadwood_outside);
    assert_eq!(moved(0, 85), deadwood_outside);
    // Deadwood over the courses is told before seams over either.
    assert_eq!(
        moved(60, 60),
        "byte offset of the deadwood 60: its 1 records must not overlap the courses"
    );
}

#[test]
fn head_kinds() {
    for kind in [3, 258, u32::MAX] {
        let must = "must be 0 (flat), 1 (half-ellipsoid) or 2 (spherical cap)";
        but(0, kind, &format!("head kind {kind}: {must}"));
    }
}

#[test]
fn header_numbers() {
    but(
        4,
        49_999,
        "dip diameter DH 49999 (499.99 mm): must be 50000 to 500000",
    );
    but(
        8,
        3_000_001,
        "shell length L1 3000001 (30,000.01 mm): must be 100000 to 3000000",
    );
    but(
        12,
        149_999,
        "circumference left 149999 (1,499.99 mm): must be 150000 to 1600000",
    );
    but(
        16,
        1_600_001,
        "circumference right 1600001 (16,000.01 mm): must be 150000 to 1600000",
    );
    but(
        20,
        20_001,
        "flange length L2 20001 (200.01 mm): must be 0 to 20000",
    );
    but(
        24,
        1,
        "head length L3 1 (0.01 mm): must be 0 to 0 for this kind of head",
    );
    for kind in [1, 2] {
        but(
            0,
            kind,
            "head length L3 0 (0.00 mm): must be 1 to 260000 for this kind of head",
        );
    }
    but(28, 99, "step 99 (0.99 mm): must be 100 to 10000");
    but(
        28,
        u32::MAX,
        "step 4294967295 (42,949,672.95 mm): must be 100 to 10000",
    );
}

#[test]
fn course_numbers() {
    but(
        COURSE,
        149_999,
        "course 1, first circumference 149999 (1,499.99 mm): must be 150000 to 1600000",
    );
    but(
        COURSE + 4,
        0,
        "course 1, second circumference 0 (0.00 mm): must be 150000 to 1600000",
    );
    but(
        COURSE + 8,
        0,
        "course 1, length 0 (0.00 mm): must be 1 to 3000000",
    );
    but(
        COURSE + 12,
        5_001,
        "course 1, thickness 5001 (50.01 mm): must be 100 to 5000",
    );

    // Three courses at an odd offset, the last of them wrong.
    let mut file = PAPER.of(&[
        Piece::Gap(&[7]),
        Piece::Courses(&[[160_221, 160_221, 50_000, 500]; 3]),
        Piece::Seams(&[NO_SEAMS; 3]),
    ]);
    put(&mut file, 57 + 2 * 16 + 12, 99);
    assert_eq!(
        sentence(&file),
        "course 3, thickness 99 (0.99 mm): must be 100 to 5000"
    );
}

#[test]
fn seam_numbers() {
    but(SEAMS, 13, "seams of course 1, number 13: must be 0 to 12");
    but(
        SEAMS,
        u32::MAX,
        "seams of course 1, number 4294967295: must be 0 to 12",
    );
    but(
        SEAMS + 4,
        1_001,
        "seams of course 1, thickness 1001 (10.01 mm): must be 0 to 1000",
    );
    but(
        SEAMS + 8,
        5_001,
        "seams of course 1, width 5001 (50.01 mm): must be 0 to 5000",
    );
    let mut file = PAPER.with_courses(100_000, &[25_000; 4]);
    put(&mut file, COURSE + 4 * 16 + 3 * 12 + 8, 123_456_789);
    assert_eq!(
        sentence(&file),
        "seams of course 4, width 123456789 (1,234,567.89 mm): must be 0 to 5000"
    );
}

/// A reading that is inside its limits until it loses the rise of 305.
#[test]
fn corrected_readings() {
    let mut file = PAPER.seamed(4, 300, 1_200);
    put(&mut file, COURSE, 150_304);
    assert_eq!(
        sentence(&file),
        "course 1, first circumference less the tape rise over its seams 149999 (1,499.99 mm): \
         must be 150000 to 1600000"
    );
    put(&mut file, COURSE, 149_999);
    assert_eq!(
        sentence(&file),
        "course 1, first circumference 149999 (1,499.99 mm): must be 150000 to 1600000"
    );
    put(&mut file, COURSE, 150_305);
    put(&mut file, COURSE + 4, 150_000);
    assert_eq!(
        sentence(&file),
        "course 1, second circumference less the tape rise over its seams 149695 (1,496.95 mm): \
         must be 150000 to 1600000"
    );
    // Of several courses the one with seams.
    let mut file = PAPER.with_courses(100_000, &[25_000; 4]);
    let seams = COURSE + 4 * 16;
    for (at, word) in [(0, 12), (4, 1_000), (8, 5_000)] {
        put(&mut file, seams + 2 * 12 + at, word);
    }
    put(&mut file, COURSE + 4, 150_000);
    put(&mut file, COURSE + 2 * 16 + 4, 150_000);
    assert_eq!(
        sentence(&file),
        "course 3, second circumference less the tape rise over its seams 143075 (1,430.75 mm): \
         must be 150000 to 1600000"
    );
}

#[test]
fn deadwood_numbers() {
    let sound = (0, 50_000, 1);
    with_deadwood(
        &[(300, 300, 1)],
        "deadwood item 1, high height 300 (3.00 mm): must be above its low height and at most DH 50000",
    );
    with_deadwood(
        &[sound, (0, 50_001, 1)],
        "deadwood item 2, high height 50001 (500.01 mm): must be above its low height and at most DH 50000",
    );
    with_deadwood(
        &[sound, sound, (0, 1, 10_000_001)],
        "deadwood item 3, volume 10000001 (100,000.01 L): must be -10000000 to 10000000",
    );
    with_deadwood(
        &[(0, 1, -10_000_001)],
        "deadwood item 1, volume -10000001 (-100,000.01 L): must be -10000000 to 10000000",
    );
    with_deadwood(
        &[(0, 1, i32::MIN)],
        "deadwood item 1, volume -2147483648 (-21,474,836.48 L): must be -10000000 to 10000000",
    );
}

#[test]
fn lengths() {
    assert_eq!(
        sentence(&PAPER.with_courses(100_000, &[25_000; 3])),
        "sum of the course lengths 75000 (750.00 mm): must be 99700 to 100300, the shell length \
         L1 give or take 100 for each course"
    );
    but(
        COURSE + 8,
        99_899,
        "sum of the course lengths 99899 (998.99 mm): must be 99900 to 100100, the shell length \
         L1 give or take 100 for each course",
    );
    // The largest sum there is.
    assert_eq!(
        sentence(&PAPER.with_courses(3_000_000, &[3_000_000; 40])),
        "sum of the course lengths 120000000 (1,200,000.00 mm): must be 2996000 to 3004000, the \
         shell length L1 give or take 100 for each course"
    );
}

#[test]
fn diameters() {
    // DH so far up that D1 and D2, both 50,000, are too far from it: D1 is told.
    but(4, 60_001, "shell diameter D1 50000 (500.00 mm): must be 50000 to 500000 and at most 10000 from DH 60001");
    // A larger end alone.
    but(16, 230_000, "head diameter D2 61106 (611.06 mm): must be 50000 to 500000 and at most 10000 from DH 50000");
}

#[test]
fn long_caps() {
    assert_eq!(
        sentence(&PAPER.headed(2, 25_001)),
        "head length L3 25001 (250.01 mm): must be at most 25000 for spherical caps, half the \
         head diameter D2 50000"
    );
    // An odd D2: half of it is rounded down.
    let mut odd = PAPER.headed(2, 260_000);
    put(&mut odd, 16, 160_227);
    assert_eq!(
        sentence(&odd),
        "head length L3 260000 (2,600.00 mm): must be at most 25000 for spherical caps, half the \
         head diameter D2 50001"
    );
    // A D2 that is refused itself is told alone.
    put(&mut odd, 16, 230_000);
    assert_eq!(
        sentence(&odd),
        "head diameter D2 61106 (611.06 mm): must be 50000 to 500000 and at most 10000 from DH \
         50000"
    );
}

#[test]
fn falling_rows() {
    with_deadwood(
        &[(30_000, 40_000, 4_539)],
        "row 4 at dip height 40000 (400.00 mm): must not be below the row before; \
         the deadwood is larger than the room there",
    );
    // The last row stands at DH, no whole step up.
    let mut file = PAPER.with_deadwood(&[(49_995, 50_000, 10_000)]);
    put(&mut file, 28, 9_999);
    assert_eq!(
        sentence(&file),
        "row 6 at dip height 50000 (500.00 mm): must not be below the row before; \
         the deadwood is larger than the room there"
    );
}

/// Of a table that is too short, before a row that falls and after all else.
#[test]
fn short_tables() {
    let told = |survey: &[u8], cells| {
        let refusal = make_table(survey, cells).err()?;
        words::of_survey(survey, Format::TODAY, refusal)
    };
    let short = Some("lent table: must have a cell for each row".to_string());
    let falling = PAPER.with_deadwood(&[(30_000, 40_000, 4_539)]);
    for cells in [0, 1, 5] {
        assert_eq!(told(&PAPER.survey(), cells), short);
        assert_eq!(told(&falling, cells), short);
        let long_caps = PAPER.headed(2, 25_001);
        assert_eq!(told(&long_caps, cells), Some(sentence(&long_caps)));
    }
    for cells in [6, 7, usize::MAX] {
        assert_eq!(told(&PAPER.survey(), cells), None);
        assert_eq!(told(&falling, cells), Some(sentence(&falling)));
    }
}

/// A sentence stands only where a survey or a lookup in its table can meet the
/// refusal.
#[test]
fn no_sentence() {
    for number in [10, 11, 12, 13] {
        let refusal = Refusal { number, place: 0 };
        assert_eq!(
            words::of_survey(&PAPER.survey(), Format::TODAY, refusal),
            None
        );
    }
    for number in [8, 10, 11] {
        let refusal = Refusal { number, place: 0 };
        assert_eq!(words::of_lookup(0, refusal, 50_000, 0), None);
    }
}

const TOO_HIGH: &str = "dip height 50001 (500.01 mm): must be at most DH 50000\n";
const SHORT: &str = "file of 47 bytes: must have 56 to 65536\n";

fn printed(output: &str, error: &str) -> Printed {
    Printed {
        output: output.to_string(),
        error: error.to_string(),
    }
}

#[test]
fn a_line_for_each_figure() {
    let survey = PAPER.survey();
    let opened = Opened::new(&survey);
    assert_eq!(
        opened.lookup(&Asked::LitresAt(vec![5_000, 50_001, 50_000])),
        printed("13.98\nrefused 12 0\n196.35\n", TOO_HIGH)
    );
    assert_eq!(
        opened.lookup(&Asked::HeightFor(vec![19_636, 1_398, 100_000])),
        printed(
            "refused 13 0\n49.99\nrefused 13 0\n",
            "volume 19636 (196.36 L): must be at most the last row, 19635\n\
             volume 100000 (1,000.00 L): must be at most the last row, 19635\n"
        )
    );
    // A refused survey is told once, however much is asked.
    let refused = Opened::new(&survey[..47]);
    for asked in [
        Asked::LitresAt(vec![0, 1, 2]),
        Asked::HeightFor(vec![0, 1]),
        Asked::Delivered {
            before: 0,
            after: 0,
        },
    ] {
        assert_eq!(refused.lookup(&asked), printed("refused 1 0\n", SHORT));
    }
}

#[test]
fn delivered() {
    let survey = PAPER.survey();
    let opened = Opened::new(&survey);
    for (before, after, output, error) in [
        (0, 5_000, "+13.98\n", ""),
        (5_000, 0, "-13.98\n", ""),
        (5_000, 5_000, "0.00\n", ""),
        (50_001, 0, "refused 12 0\n", TOO_HIGH),
        (0, 50_001, "refused 12 0\n", TOO_HIGH),
        (50_001, 60_000, "refused 12 0\n", TOO_HIGH),
    ] {
        assert_eq!(
            opened.lookup(&Asked::Delivered { before, after }),
            printed(output, error)
        );
    }
}

#[test]
fn the_programs() {
    let table = env!("CARGO_BIN_EXE_reference_table");
    let lookup = env!("CARGO_BIN_EXE_reference_lookup");
    let survey = PAPER.survey();
    assert_eq!(run(table, &[], &survey).error, "");
    assert_eq!(
        run(table, &[], &survey[..47]),
        printed("refused 1 0\n", SHORT)
    );
    assert_eq!(
        run(lookup, &["litres", "50", "500.01"], &survey),
        printed("13.98\nrefused 12 0\n", TOO_HIGH)
    );
    assert_eq!(
        run(lookup, &["delivered", "50", "0"], &survey),
        printed("-13.98\n", "")
    );

    let path = std::path::Path::new(env!("CARGO_TARGET_TMPDIR")).join("paper.survey");
    std::fs::write(&path, &survey).unwrap();
    let path = path.to_str().unwrap();
    assert_eq!(
        run(lookup, &["-f", path, "delivered", "0", "50"], &[]),
        printed("+13.98\n", "")
    );
    assert_eq!(run(table, &["-f", path], &[]), run(table, &[], &survey));
}

/// What a program prints for a survey on its standard input.
fn run(program: &str, words: &[&str], survey: &[u8]) -> Printed {
    let output = run_program(program, words, survey);
    assert!(output.status.success());
    printed(
        &String::from_utf8(output.stdout).unwrap(),
        &String::from_utf8(output.stderr).unwrap(),
    )
}
