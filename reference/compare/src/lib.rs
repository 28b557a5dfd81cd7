//! The proved library as a Rust program calls it.

pub mod calls;
