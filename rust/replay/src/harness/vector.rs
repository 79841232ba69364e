//! The forms of the recorded answers.
pub mod document;
pub mod line;
pub mod listing;
pub mod plan;
pub mod records;
pub mod text;
pub mod value;
