//! The port against the definitions and the recorded answers, and what all tests share.
pub mod generators;
pub mod harness;
pub mod model;
