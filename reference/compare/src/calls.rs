//! A safe wrapper for each function of `milechime.h`. A slice is always what
//! its pointer and length say, and these functions ask nothing else of a
//! caller, so no wrapper tests anything.

/// "The answer holds D1, D2 and the row count", with the refusal's number and
/// place before them.
#[repr(C)]
#[derive(Clone, Copy, Debug, PartialEq, Eq)]
pub struct TableAnswer {
    pub refusal: u32,
    pub place: u32,
    pub d1: u32,
    pub d2: u32,
    pub rows: u32,
}

/// A lookup's answer: the refusal's number and place, and the volume or the
/// height that was asked for.
#[repr(C)]
#[derive(Clone, Copy, Debug, PartialEq, Eq)]
pub struct LookupAnswer {
    pub refusal: u32,
    pub place: u32,
    pub figure: u32,
}

/// The bytes of the largest file that the converter writes: a header of 56, 40
/// courses of 16, 64 deadwood items of 12, and seams of 12 for each course.
pub const MOST_BYTES: usize = 56 + 40 * 16 + 64 * 12 + 40 * 12;

/// A converted file and its length, or the refusal's number and place with a
/// length of 0. Bytes behind the length are 0.
#[repr(C)]
#[derive(Clone, Copy, Debug, PartialEq, Eq)]
pub struct ConvertedAnswer {
    pub refusal: u32,
    pub place: u32,
    pub length: u32,
    pub file: [u8; MOST_BYTES],
}

/// The bytes that an answer in words has room for.
pub const MOST_WORDS: usize = 256;

/// What a survey is refused for, in words, and their length: 0 where there are none.
/// Bytes behind the length are 0.
#[repr(C)]
#[derive(Clone, Copy, Debug, PartialEq, Eq)]
pub struct WordsAnswer {
    pub length: u32,
    pub text: [u8; MOST_WORDS],
}

impl WordsAnswer {
    /// The answer with these words.
    pub fn of(words: &str) -> WordsAnswer {
        let mut text = [0; MOST_WORDS];
        text[..words.len()].copy_from_slice(words.as_bytes());
        WordsAnswer {
            length: words.len() as u32,
            text,
        }
    }
}

#[link(name = "capi", kind = "static")]
extern "C" {
    fn milechime_table(
        survey: *const u8,
        survey_length: usize,
        table: *mut u32,
        table_length: usize,
    ) -> TableAnswer;

    fn milechime_litres(
        dh: u32,
        step: u32,
        table: *const u32,
        table_length: usize,
        height: u32,
    ) -> LookupAnswer;

    fn milechime_height(
        dh: u32,
        step: u32,
        table: *const u32,
        table_length: usize,
        volume: u32,
    ) -> LookupAnswer;

    fn milechime_convert_48(survey: *const u8, survey_length: usize) -> ConvertedAnswer;

    fn milechime_words(survey: *const u8, survey_length: usize, table_length: usize)
        -> WordsAnswer;

    fn milechime_convert_words(survey: *const u8, survey_length: usize, header: u32)
        -> WordsAnswer;
}

/// Makes the table of a survey.
pub fn table(survey: &[u8], table: &mut [u32]) -> TableAnswer {
    // SAFETY: pointer and length are those of a slice, the table's borrowed
    // for this call alone.
    unsafe {
        milechime_table(
            survey.as_ptr(),
            survey.len(),
            table.as_mut_ptr(),
            table.len(),
        )
    }
}

/// The volume at a dip height.
pub fn litres(dh: u32, step: u32, table: &[u32], height: u32) -> LookupAnswer {
    // SAFETY: pointer and length are those of a slice.
    unsafe { milechime_litres(dh, step, table.as_ptr(), table.len(), height) }
}

/// The lowest dip height for a volume.
pub fn height(dh: u32, step: u32, table: &[u32], volume: u32) -> LookupAnswer {
    // SAFETY: pointer and length are those of a slice.
    unsafe { milechime_height(dh, step, table.as_ptr(), table.len(), volume) }
}

/// Converts a survey with a header of 48 bytes.
pub fn convert_48(survey: &[u8]) -> ConvertedAnswer {
    // SAFETY: pointer and length are those of a slice.
    unsafe { milechime_convert_48(survey.as_ptr(), survey.len()) }
}

/// What a survey with a table of so many cells is refused for, in words.
pub fn words(survey: &[u8], table_length: usize) -> WordsAnswer {
    // SAFETY: pointer and length are those of a slice.
    unsafe { milechime_words(survey.as_ptr(), survey.len(), table_length) }
}

/// What a survey with a header of so many bytes is not converted for, in words.
pub fn convert_words(survey: &[u8], header: u32) -> WordsAnswer {
    // SAFETY: pointer and length are those of a slice.
    unsafe { milechime_convert_words(survey.as_ptr(), survey.len(), header) }
}
