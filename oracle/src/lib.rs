//! Runs books and scripts of diagram operations with the Rust of docs/src.

pub mod books;
pub mod diagrams;
pub mod limits;
