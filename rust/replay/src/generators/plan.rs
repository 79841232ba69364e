//! Presets to plan, and what is selected of them.
pub mod cases;
pub mod keys;
pub mod random;
