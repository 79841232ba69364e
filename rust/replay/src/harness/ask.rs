//! The port's answers, with the rooms that it was lent looked through.
pub mod document;
pub mod listing;
pub mod plan;
pub mod records;
pub mod text;
pub mod value;
