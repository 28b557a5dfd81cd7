//! "A refusal returns its number and place".

/// The number and place of a refusal, as in the paper's table of refusals.
#[derive(Clone, Copy, Debug, PartialEq, Eq)]
pub struct Refusal {
    pub number: u32,
    pub place: u32,
}

/// A refusal whose place is 0.
pub fn refuse(number: u32) -> Refusal {
    Refusal { number, place: 0 }
}

/// A refusal with a place: a byte offset (5) or a row index (9).
pub fn refuse_at(number: u32, place: usize) -> Refusal {
    Refusal {
        number,
        place: place as u32,
    }
}
