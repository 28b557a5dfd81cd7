//! A second, independent program for dip tables of level, round tanks.
//!
//! It is written from the scope paper and requests E1, E2 and E4 to E7 of the paper
//! on later changes alone, and aims at being easy to compare with them, sentence by
//! sentence. Sentences in quotation marks are taken from the papers. What the
//! programs print beside that, and their sentences for refusals, are those of
//! their users' documents.
//!
//! Lengths are whole numbers of u = 0.01 mm, volumes whole numbers of
//! v = 0.01 L; "One v is 10^10 cubic u".

pub mod below_zero;
pub mod big;
pub mod bytes;
pub mod caps;
pub mod conversions;
pub mod convert;
pub mod counted;
pub mod deadwood;
pub mod dimensions;
pub mod domes;
pub mod format;
pub mod generate;
pub mod given;
pub mod gross;
pub mod halves;
pub mod headers;
pub mod heights;
pub mod limited;
pub mod limits;
pub mod lookup;
pub mod mirrored;
pub mod misses;
pub mod numbers;
pub mod printed;
pub mod random;
pub mod refusal;
pub mod rise;
pub mod rises;
pub mod rows;
pub mod sections;
pub mod slabs;
pub mod survey;
pub mod table;
pub mod text;
pub mod volumes;
pub mod words;

pub use convert::convert;
pub use format::Format;
pub use lookup::{delivered, height_for_volume, litres_at_height};
pub use refusal::Refusal;
pub use table::{fill_table, make_table, make_table_of, Answer, Table};
