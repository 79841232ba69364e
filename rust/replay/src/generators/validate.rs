//! Presets that obey the rules, and such as break them.
pub mod cases;
pub mod faults;
pub mod near;
pub mod plain;
pub mod random;
pub mod sound;
pub mod spelled;
