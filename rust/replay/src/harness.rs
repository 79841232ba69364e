//! What asks the port, holds its answers and its rooms against what they should be, and reads recorded answers.
pub mod ask;
pub mod differences;
pub mod faults;
pub mod met;
pub mod rooms;
pub mod split;
pub mod stack;
pub mod suite;
pub mod vector;
