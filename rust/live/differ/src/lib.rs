//! The original and the port side by side.
pub mod compare;
pub mod corners;
pub mod document;
pub mod listing;
pub mod locks;
pub mod long;
pub mod original;
pub mod picked;
pub mod plan;
pub mod record;
pub mod records;
pub mod run;
pub mod shapes;
pub mod shorten;
pub mod suite;
pub mod validate;
pub mod value;
