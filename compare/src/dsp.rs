//! The original's dsp.rs, as far as the groove uses it; build.rs takes it out by its text.
#![allow(dead_code)]

include!(concat!(env!("OUT_DIR"), "/dsp.rs"));
