//! A second derivation of 01: what the definitions answer, computed in Rust.
pub mod answer;
pub mod document;
pub mod listing;
pub mod plan;
pub mod records;
pub mod text;
pub mod validate;
pub mod value;
