//! The original, byte for byte, with its private functions handed out (see build.rs).
include!(concat!(env!("OUT_DIR"), "/tree.rs"));
