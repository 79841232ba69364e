//! What is answered: by the definitions, the port and the original alike.
pub mod document;
pub mod records;
pub mod text;
pub mod value;
