//! The safe wrapper on the smallest and largest of what it takes, and on the
//! paper's example.

use compare::calls::{
    convert_48, convert_words, height, litres, table, words, ConvertedAnswer, LookupAnswer,
    TableAnswer, WordsAnswer, MOST_BYTES, MOST_WORDS,
};

const DH: u32 = 50_000;
const STEP: u32 = 10_000;
const ROWS: [u32; 6] = [0, 2796, 7334, 12301, 16839, 19635];

/// The header's numbers before its counts and offsets, and the course, of the
/// paper's survey: flat heads, one course.
const HEADER: [u32; 8] = [0, DH, 100_000, 160_221, 160_221, 0, 0, STEP];
const COURSE: [u32; 4] = [160_221, 160_221, 100_000, 500];

fn bytes(parts: &[&[u32]]) -> Vec<u8> {
    let numbers = parts.concat();
    numbers.iter().flat_map(|n| n.to_le_bytes()).collect()
}

/// The paper's survey, with no seams on its course.
fn paper() -> Vec<u8> {
    bytes(&[&HEADER, &[1, 56, 0, 0, 1, 72], &COURSE, &[0, 0, 0]])
}

/// The same with a header of 48 bytes.
fn old_paper() -> Vec<u8> {
    bytes(&[&HEADER, &[1, 48, 0, 0], &COURSE])
}

/// A refusal of a survey, every other number 0.
fn refused(refusal: u32) -> TableAnswer {
    TableAnswer {
        refusal,
        place: 0,
        d1: 0,
        d2: 0,
        rows: 0,
    }
}

/// An answer to a lookup with place 0.
fn answer(refusal: u32, figure: u32) -> LookupAnswer {
    LookupAnswer {
        refusal,
        place: 0,
        figure,
    }
}

#[test]
fn the_papers_table_and_its_rest_untouched() {
    let mut cells = [7; 8];
    let made = table(&paper(), &mut cells);
    assert_eq!(
        made,
        TableAnswer {
            refusal: 0,
            place: 0,
            d1: 50_000,
            d2: 50_000,
            rows: 6,
        }
    );
    assert_eq!(cells[..6], ROWS);
    assert_eq!(cells[6..], [7, 7]);
}

#[test]
fn an_empty_survey_and_one_of_70_000_bytes() {
    let mut cells = [7; 6];
    assert_eq!(table(&[], &mut cells), refused(1));
    assert_eq!(table(&[0; 70_000], &mut cells), refused(1));
    assert_eq!(cells, [7; 6]);
}

#[test]
fn an_empty_table() {
    assert_eq!(table(&paper(), &mut []), refused(8));
    assert_eq!(table(&[], &mut []), refused(1));
    assert_eq!(litres(DH, STEP, &[], 0), answer(11, 0));
    assert_eq!(height(DH, STEP, &[], 0), answer(11, 0));
}

#[test]
fn the_papers_lookups() {
    assert_eq!(litres(DH, STEP, &ROWS, 5_000), answer(0, 1_398));
    assert_eq!(height(DH, STEP, &ROWS, 1_398), answer(0, 4_999));
    assert_eq!(litres(DH, STEP, &ROWS, DH + 1), answer(12, 0));
    assert_eq!(height(DH, STEP, &ROWS, 19_636), answer(13, 0));
}

/// A refusal of an old survey, every other number and byte 0.
fn not_converted(refusal: u32, place: u32) -> ConvertedAnswer {
    ConvertedAnswer {
        refusal,
        place,
        length: 0,
        file: [0; MOST_BYTES],
    }
}

#[test]
fn the_papers_old_survey_and_zeros_behind_it() {
    let made = convert_48(&old_paper());
    assert_eq!((made.refusal, made.place, made.length), (0, 0, 84));
    assert_eq!(made.file[..84], paper());
    assert_eq!(made.file[84..], [0; MOST_BYTES - 84]);
    let mut cells = [7; 8];
    assert_eq!(table(&made.file[..84], &mut cells).rows, 6);
    assert_eq!(cells[..6], ROWS);
}

#[test]
fn old_surveys_that_are_refused() {
    assert_eq!(convert_48(&[]), not_converted(1, 0));
    assert_eq!(convert_48(&old_paper()[..47]), not_converted(1, 0));
    assert_eq!(convert_48(&old_paper()[..48]), not_converted(3, 0));
    assert_eq!(convert_48(&[0; 70_000]), not_converted(1, 0));
    let mut low = old_paper();
    low[4..8].copy_from_slice(&49_999u32.to_le_bytes());
    assert_eq!(convert_48(&low), not_converted(5, 4));
}

/// 40 courses and 64 deadwood items fill the answer to its last byte.
#[test]
fn the_largest_old_survey() {
    let course = [160_221, 160_221, 2_500, 500];
    let counts = [40, 48, 64, 48 + 40 * 16];
    let old = bytes(&[&HEADER, &counts, &course.repeat(40), &[0, DH, 1].repeat(64)]);
    let made = convert_48(&old);
    assert_eq!((made.refusal, made.place), (0, 0));
    assert_eq!(made.length as usize, MOST_BYTES);
    assert_eq!(made.file[56..56 + old.len() - 48], old[48..]);
    assert_eq!(made.file[MOST_BYTES - 480..], [0; 480]);
}

#[track_caller]
fn says(answer: WordsAnswer, words: &str) {
    assert_eq!(answer, WordsAnswer::of(words));
}

#[test]
fn no_words_are_zeros() {
    let none = WordsAnswer {
        length: 0,
        text: [0; MOST_WORDS],
    };
    assert_eq!(words(&paper(), 6), none);
    assert_eq!(words(&paper(), usize::MAX), none);
    assert_eq!(convert_words(&old_paper(), 48), none);
}

#[test]
fn words_for_surveys() {
    says(words(&[], 0), "file of 0 bytes: must have 56 to 65536");
    says(
        words(&[0; 70_000], 6),
        "file of more than 65536 bytes: must have 56 to 65536",
    );
    for cells in [0, 5] {
        says(
            words(&paper(), cells),
            "lent table: must have a cell for each row",
        );
    }
}

#[test]
fn words_for_old_surveys() {
    says(
        convert_words(&[], 48),
        "file of 0 bytes: must have 48 to 65536",
    );
    let mut low = old_paper();
    low[4..8].copy_from_slice(&49_999u32.to_le_bytes());
    says(
        convert_words(&low, 48),
        "dip diameter DH 49999 (499.99 mm): must be 50000 to 500000",
    );
    for old in [vec![], low, old_paper(), vec![0; 70_000]] {
        for header in [0, 47, 49, 56, u32::MAX] {
            let told = format!("old header of {header} bytes: must have 48");
            says(convert_words(&old, header), &told);
        }
    }
}

/// A byte behind the words makes another answer, and so does their length.
#[test]
fn what_stands_behind_the_words() {
    for at in [3, MOST_WORDS - 1] {
        let mut answer = WordsAnswer::of("row");
        answer.text[at] = 1;
        assert_ne!(answer, WordsAnswer::of("row"));
    }
    let mut answer = WordsAnswer::of("row");
    answer.length = 2;
    assert_ne!(answer, WordsAnswer::of("row"));
}
