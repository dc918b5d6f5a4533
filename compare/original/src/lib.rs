//! The original, for comparison: its files unchanged, with stand-ins for what is not there; and beside
//! render/seq.rs a copy of it with the organ's pairs replaced.
#![allow(dead_code, clippy::all)]

pub mod dsl;
pub mod voice;

/// Exact musical time.
pub mod units {
    include!(concat!(env!("OUT_DIR"), "/units.rs"));

    impl Eq for Beat {}
}

include!(concat!(env!("OUT_DIR"), "/files.rs"));
