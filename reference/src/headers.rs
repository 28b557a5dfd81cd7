//! Lengths of headers that no old survey has: for counting how often each edge was
//! tried.

use crate::counted::Counted;

/// None, one less and one more than 48, today's, those that are 48 in their low 8 or
/// 16 bits, and the largest.
pub const EDGES: [u32; 7] = [0, 47, 49, 56, 304, 65_584, u32::MAX];

/// Such a length: one of the edges, or another.
#[derive(Clone, Copy, Debug, PartialEq, Eq, PartialOrd, Ord)]
pub struct OtherHeader(Option<u32>);

impl OtherHeader {
    pub fn of_bytes(bytes: u32) -> OtherHeader {
        OtherHeader(EDGES.contains(&bytes).then_some(bytes))
    }
}

impl Counted for OtherHeader {
    fn all() -> Vec<OtherHeader> {
        let edges = EDGES.into_iter().map(Some);
        edges.chain([None]).map(OtherHeader).collect()
    }

    fn name(self) -> String {
        self.0
            .map_or("another".to_string(), |bytes| format!("{bytes} bytes"))
    }
}
