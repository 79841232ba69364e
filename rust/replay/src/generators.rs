//! Texts, presets and rooms to ask about.
pub mod document;
pub mod joining;
pub mod large;
pub mod listing;
pub mod locks;
pub mod mixed;
pub mod names;
pub mod plan;
pub mod random;
pub mod records;
pub mod tree;
pub mod validate;
pub mod value;
