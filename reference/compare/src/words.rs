//! Words for a refusal: the whole answer, what stands behind its text too.

use crate::seen::{Seen, Sentences};
use compare::calls::WordsAnswer;
use reference::words::of_survey;
use reference::{Format, Refusal};

/// The words of one call that were compared.
pub struct Words {
    /// Those for surveys, by the refusal that they are about.
    refusals: Seen,
    sentences: Sentences,
}

impl Words {
    /// None yet, for a call that tells these refusals and has so many sentences.
    pub fn new(refusals: impl IntoIterator<Item = u32>, sentences: usize) -> Words {
        Words {
            refusals: Seen::new(refusals),
            sentences: Sentences::new(sentences),
        }
    }

    /// Whether the words for a survey are the reference's for the refusal that it meets
    /// in its format, and none where it meets none.
    pub fn same(
        &mut self,
        ours: &WordsAnswer,
        survey: &[u8],
        format: Format,
        refusal: Option<Refusal>,
    ) -> bool {
        self.refusals
            .add(refusal.map_or(0, |refusal| refusal.number));
        let told = refusal.map(|refusal| {
            of_survey(survey, format, refusal).expect("there are words for every refusal")
        });
        self.same_sentence(ours, &told.unwrap_or_default())
    }

    /// Whether an answer is this sentence of the reference's. Prints both if it is not.
    pub fn same_sentence(&mut self, ours: &WordsAnswer, sentence: &str) -> bool {
        self.sentences.add(sentence);
        let reference = WordsAnswer::of(sentence);
        if *ours != reference {
            println!("MISMATCH: words");
            println!("  ours      {}", shown(ours));
            println!("  reference {}", shown(&reference));
        }
        *ours == reference
    }

    /// Prints what was seen, and says whether it was often enough.
    pub fn print(&self, of: &str) -> bool {
        let refusals = self
            .refusals
            .print_with("empty", &format!("words for {of}"));
        let sentences = self
            .sentences
            .print(&format!("sentences in words for {of}"));
        refusals && sentences
    }
}

/// The length of an answer, and its text up to the last byte that is not 0.
fn shown(answer: &WordsAnswer) -> String {
    let last = answer.text.iter().rposition(|&byte| byte != 0);
    let text = &answer.text[..last.map_or(0, |at| at + 1)];
    format!("length {}: {}", answer.length, text.escape_ascii())
}
