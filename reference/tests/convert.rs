//! The converter: what it writes, what stays, and what it prints for a refused
//! file.

mod common;

use common::*;
use reference::counted::Tally;
use reference::generate::{old_case, other_header};
use reference::headers::OtherHeader;
use reference::printed::{conversion, Written};
use reference::rows::MOST_ROWS;
use reference::survey::parse;
use reference::words::of_old_header;
use reference::{convert, make_table, make_table_of, Format, Refusal};
use std::process::Output;

/// The words of a file of whole words.
fn words(file: &[u8]) -> Vec<u32> {
    file.chunks(4)
        .map(|word| u32::from_le_bytes(word.try_into().unwrap()))
        .collect()
}

/// The paper's survey: the header grows by the seams' count and offset, the
/// course moves 8 bytes on, and seams of zeros follow it.
#[test]
fn the_papers_survey() {
    let converted = convert(&OLD_PAPER.survey()).unwrap();
    assert_eq!(
        words(&converted),
        [
            0, 50_000, 100_000, 160_221, 160_221, 0, 0, 10_000, // as they were
            1, 56, 0, 0, 1, 72, // counts and offsets
            160_221, 160_221, 100_000, 500, // the course
            0, 0, 0, // its seams
        ]
    );
    assert_eq!(converted, PAPER.survey());
}

/// Deadwood before the courses, gaps of odd lengths before, between and behind
/// them: end to end in the header's order, and the gaps are gone.
#[test]
fn sections_end_to_end() {
    let file = OLD_PAPER.of(&[
        Piece::Gap(&[7; 3]),
        Piece::Deadwood(&[[0, 50_000, 2], [10_000, 20_000, 3]]),
        Piece::Gap(&[8; 10]),
        Piece::Courses(&[
            [160_221, 160_222, 60_000, 499],
            [160_223, 160_224, 40_100, 498],
        ]),
        Piece::Gap(&[9; 5]),
    ]);
    assert_eq!(file.len(), 122);
    assert_eq!(
        words(&convert(&file).unwrap()),
        [
            0, 50_000, 100_000, 160_221, 160_221, 0, 0, 10_000, //
            2, 56, 2, 88, 2, 112, //
            160_221, 160_222, 60_000, 499, 160_223, 160_224, 40_100, 498, //
            0, 50_000, 2, 10_000, 20_000, 3, //
            0, 0, 0, 0, 0, 0,
        ]
    );
}

/// "an empty one's offset 0", whatever it was.
#[test]
fn an_empty_section() {
    for offset in [0, 1, 47, 48, 56, 64, 65_536, u32::MAX] {
        let file = OLD_PAPER.but(44, offset);
        assert_eq!(convert(&file).unwrap(), PAPER.survey(), "{offset}");
    }
}

/// A negative deadwood volume and every other number stay as they are.
#[test]
fn numbers_stay() {
    let mut file = OLD_PAPER.with_deadwood(&[(0, 50_000, -10_000_000), (1, 2, 0)]);
    for (at, word) in [
        (0, 2),
        (16, 160_227),
        (20, 20_000),
        (24, 25_000),
        (28, 9_999),
    ] {
        put(&mut file, at, word);
    }
    let converted = words(&convert(&file).unwrap());
    assert_eq!(converted[..8], words(&file)[..8]);
    assert_eq!(converted[8..14], [1, 56, 2, 72, 1, 96]);
    assert_eq!(converted[14..24], words(&file)[12..22]);
    assert_eq!(converted[24..], [0, 0, 0]);
}

/// 40 courses and 64 items: the largest file there is once it is converted.
#[test]
fn the_largest() {
    let mut file = OLD_PAPER.with_courses(100_000, &[2_500; 40]);
    let length = file.len() as u32;
    put(&mut file, 40, 64);
    put(&mut file, 44, length);
    file.extend(bytes_of(&[0, 50_000, 1]).repeat(64));
    file.resize(65_536, 5);
    let converted = convert(&file).unwrap();
    assert_eq!(converted.len(), 1_944);
    assert_eq!(words(&converted)[8..14], [40, 56, 64, 696, 40, 1_464]);
    file.push(5);
    assert_eq!(OLD_PAPER.refused(&file), (1, 0));
}

/// A row that falls is no conversion; one that just does not is. There is room
/// for every table, so refusal 8 does not come.
#[test]
fn a_falling_row() {
    for (volume, wanted) in [(2_796, (0, 0)), (2_797, (9, 1))] {
        let file = OLD_PAPER.with_deadwood(&[(0, 10_000, volume)]);
        assert_eq!(OLD_PAPER.refused(&file), wanted);
    }
    // 5,001 rows, and a fall at the last.
    let mut file = OLD_PAPER.with_deadwood(&[(499_999, 500_000, 10_000_000)]);
    for (at, word) in [(4, 500_000), (28, 100), (60, 100)] {
        put(&mut file, at, word);
    }
    for at in [12, 16, 48, 52] {
        put(&mut file, at, 1_571_000);
    }
    assert_eq!(OLD_PAPER.refused(&file), (9, 5_000));
    put(&mut file, 72, 0);
    assert_eq!(OLD_PAPER.refused(&file), (0, 0));
}

/// Read with a header of 48 bytes, a file of today's format has its seams and
/// the header's words on them in no section: they are dropped, and none take
/// their place.
#[test]
fn a_file_of_today() {
    assert_eq!(convert(&PAPER.survey()).unwrap(), PAPER.survey());
    let seamed = PAPER.seamed(4, 300, 1_200);
    assert_eq!(convert(&seamed).unwrap(), PAPER.survey());
}

/// Whatever the old file is: it is converted exactly when its table can be made;
/// the new file is accepted, gives the same table and the same numbers, and has
/// no byte more than its sections; converting says what the table would.
#[test]
fn generated_old_files() {
    let mut seen = [0; 15];
    for number in 0..2_000 {
        let file = old_case(5, number);
        let table = make_table_of(&file, Format::Header48, MOST_ROWS);
        seen[table.as_ref().map_or_else(|r| r.number, |_| 0) as usize] += 1;
        let converted = match (convert(&file), &table) {
            (Ok(converted), Ok(_)) => converted,
            (Err(refusal), Err(of_table)) => {
                assert_eq!(refusal, *of_table);
                continue;
            }
            (converted, table) => panic!("{converted:?} {table:?}"),
        };
        assert_eq!(make_table(&converted, MOST_ROWS), table);
        let before = parse(&file, Format::Header48).unwrap();
        assert_eq!(parse(&converted, Format::TODAY).unwrap(), before);
        let records = (before.courses.len(), before.deadwood.len());
        assert_eq!(converted.len(), 56 + 28 * records.0 + 12 * records.1);
        // What is converted once is end to end: its old words lie there.
        let mut words = words(&converted);
        assert!(words
            .split_off(words.len() - 3 * records.0)
            .iter()
            .all(|&w| w == 0));
        let offsets = if records.1 == 0 {
            0
        } else {
            56 + 16 * records.0
        };
        assert_eq!(words[9..12], [56, records.1 as u32, offsets as u32]);
        assert_eq!(words[12] as usize, records.0);
        assert_eq!(words[13] as usize, converted.len() - 12 * records.0);
    }
    for number in [0, 1, 2, 3, 4, 5, 6, 7, 9, 14] {
        assert!(seen[number] > 20, "{seen:?}");
    }
    assert_eq!((seen[8], seen[10]), (0, 0));
}

/// The same seed and number are the same file.
#[test]
fn cases_are_repeatable() {
    for number in 0..50 {
        assert_eq!(old_case(3, number), old_case(3, number));
    }
    assert_ne!(old_case(3, 1), old_case(4, 1));
}

fn written(output: impl Into<Vec<u8>>, error: &str) -> Written {
    Written {
        output: output.into(),
        error: error.to_string(),
    }
}

/// Refusals in the words of the old format: its header has 48 bytes, and there
/// are no seams to be told of.
#[test]
fn sentences() {
    let cut = |length| OLD_PAPER.survey()[..length].to_vec();
    let deadwood_at = |offset| {
        let mut file = OLD_PAPER.with_deadwood(&[(0, 50_000, 1)]);
        put(&mut file, 44, offset);
        file
    };
    for (file, told) in [
        (cut(47), "1 0: file of 47 bytes: must have 48 to 65536"),
        (
            vec![0; 70_000],
            "1 0: file of more than 65536 bytes: must have 48 to 65536",
        ),
        (
            cut(50),
            "3 0: byte offset of the courses 48: its 1 records must start at byte 48 or later \
             and end inside the file of 50 bytes",
        ),
        (
            OLD_PAPER.but(32, 41),
            "2 0: course count 41: must be 1 to 40",
        ),
        (
            OLD_PAPER.but(40, 65),
            "2 0: deadwood count 65: must be 0 to 64",
        ),
        (
            deadwood_at(47),
            "3 0: byte offset of the deadwood 47: its 1 records must not overlap the courses",
        ),
        (
            deadwood_at(65),
            "3 0: byte offset of the deadwood 65: its 1 records must start at byte 48 or later \
             and end inside the file of 76 bytes",
        ),
        (
            OLD_PAPER.but(48, 149_999),
            "5 48: course 1, first circumference 149999 (1,499.99 mm): must be 150000 to \
             1600000",
        ),
        (
            OLD_PAPER.but(56, 99_899),
            "6 0: sum of the course lengths 99899 (998.99 mm): must be 99900 to 100100, the \
             shell length L1 give or take 100 for each course",
        ),
        (
            OLD_PAPER.but(4, 60_001),
            "7 0: shell diameter D1 50000 (500.00 mm): must be 50000 to 500000 and at most \
             10000 from DH 60001",
        ),
        (
            OLD_PAPER.headed(2, 25_001),
            "14 0: head length L3 25001 (250.01 mm): must be at most 25000 for spherical caps, \
             half the head diameter D2 50000",
        ),
        (
            OLD_PAPER.with_deadwood(&[(30_000, 40_000, 4_539)]),
            "9 4: row 4 at dip height 40000 (400.00 mm): must not be below the row before; the \
             deadwood is larger than the room there",
        ),
    ] {
        let (refusal, sentence) = told.split_once(": ").unwrap();
        let line = format!("refused {refusal}\n");
        assert_eq!(conversion(&file), written(line, &format!("{sentence}\n")));
    }
}

/// Any length of a header but that of old files is told.
#[test]
fn other_headers() {
    assert_eq!(of_old_header(48), None);
    for bytes in [0, 47, 49, 56, 304, 65_584, u32::MAX] {
        let told = format!("old header of {bytes} bytes: must have 48");
        assert_eq!(of_old_header(bytes), Some(told));
    }
}

/// Generated ones are never that of old files; all edges are tried, and numbers of
/// few digits and of many.
#[test]
fn generated_other_headers() {
    let mut tally = Tally::default();
    let mut digits = [0; 11];
    for number in 0..2_000 {
        let bytes = other_header(7, number);
        assert_ne!(bytes, 48);
        assert_eq!(bytes, other_header(7, number));
        tally.add([OtherHeader::of_bytes(bytes)]);
        digits[bytes.to_string().len()] += 1;
    }
    assert!(tally.least() > 100, "{tally:?}");
    assert!(digits[1..].iter().all(|&count| count > 50), "{digits:?}");
}

/// There is a sentence for every refusal that an old file meets.
#[test]
fn every_refusal_is_told() {
    for number in 0..1_000 {
        let file = old_case(6, number);
        let told = conversion(&file);
        match convert(&file) {
            Ok(converted) => assert_eq!(told, written(converted, "")),
            Err(Refusal { number, place }) => {
                let line = format!("refused {number} {place}\n");
                assert_eq!(told.output, line.into_bytes());
                assert_eq!(told.error.lines().count(), 1);
                assert!(!told.error.contains("seam"), "{}", told.error);
            }
        }
    }
}

#[test]
fn the_program() {
    let file = OLD_PAPER.survey();
    let printed = |words: &[&str], input: &[u8]| {
        let output = run(words, input);
        assert!(output.status.success());
        written(output.stdout, &String::from_utf8(output.stderr).unwrap())
    };
    assert_eq!(printed(&["48"], &file), written(PAPER.survey(), ""));
    assert_eq!(
        printed(&["48"], &file[..47]),
        written("refused 1 0\n", "file of 47 bytes: must have 48 to 65536\n")
    );
    let path = std::path::Path::new(env!("CARGO_TARGET_TMPDIR")).join("old.survey");
    std::fs::write(&path, &file).unwrap();
    let path = path.to_str().unwrap();
    assert_eq!(
        printed(&["-f", path, "48"], &[]),
        written(PAPER.survey(), "")
    );
}

/// Anything but one FROM of 48 is told what was expected, and nothing is
/// converted.
#[test]
fn wrong_use() {
    for words in [
        &[][..],
        &["56"],
        &["47"],
        &["048"],
        &["forty-eight"],
        &["48", "48"],
        &["-f"],
        &["48", "-f"],
    ] {
        let output = run(words, &[]);
        assert_eq!(output.status.code(), Some(2), "{words:?}");
        assert!(output.stdout.is_empty());
        let error = String::from_utf8(output.stderr).unwrap();
        assert!(error.contains("usage:") && error.contains("48"), "{error}");
    }
}

/// A run of the program with these words and this standard input.
fn run(words: &[&str], input: &[u8]) -> Output {
    run_program(env!("CARGO_BIN_EXE_reference_convert"), words, input)
}
